//! For each clause of the order, broken tables that every call answers with 16, unchanged.

use second::answer::{Done, Outcome, Refusal};
use second::events::{advance, crash, create, cut, deliver, link, open, recover, unlink};
use second::order::{in_order, o1, o2, o3, o4, o5, o6, o7};
use second::settle::{settle, Tally};
use second::tables::{
    Entry, Kind, Message, Name, Object, Partition, Reason, Record, Stage, Tables, Transaction, Word,
};

type Change = fn(&mut Tables);
type Call<'a> = &'a dyn Fn(&mut Tables) -> Outcome;

fn object(partition: u32, number: u32) -> Object {
    Object { partition, number }
}

/// Three partitions: two entries in 0, and two sent records, one answered; 2 is down with a
/// ready record.
fn rich() -> Tables {
    let mut tables = Tables::default();
    assert!(open(&mut tables, 3).is_ok());
    let t = &mut tables;
    assert!(create(t, 0, 0, &Name::new(b"a"), object(1, 5)).is_ok());
    assert!(create(t, 0, 1, &Name::new(b"b"), object(1, 6)).is_ok());
    assert_eq!(settle(t, 100, &mut Tally::default()), Ok(10));
    assert!(create(t, 0, 0, &Name::new(b"c"), object(1, 7)).is_ok());
    assert!(link(t, 0, 0, &Name::new(b"d"), object(1, 9)).is_ok());
    assert!(advance(t, 0, 3).is_ok());
    assert!(advance(t, 0, 4).is_ok());
    assert_eq!(deliver(t, 0, 1), Ok(Done::quiet(3)));
    assert!(create(t, 2, 0, &Name::new(b"e"), object(1, 8)).is_ok());
    assert!(crash(t, 2).is_ok());
    assert!(in_order(t));
    tables
}

/// Every call, with good and with bad parameters, answers 16 and changes nothing.
fn refused_by_all(broken: &Tables, what: usize) {
    let name = Name::new(b"x");
    let calls: [Call; 11] = [
        &|t| link(t, 0, 0, &name, object(1, 5)),
        &|t| create(t, 0, 0, &name, object(1, 5)),
        &|t| unlink(t, 0, 0, &Name::new(b"a")),
        &|t| advance(t, 0, 3),
        &|t| deliver(t, 0, 1),
        &|t| cut(t, 0, 1),
        &|t| crash(t, 0),
        &|t| recover(t, 2),
        &|t| link(t, 9, 9, &Name::default(), object(9, 99)),
        &|t| cut(t, 9, 9),
        &|t| deliver(t, 9, 0),
    ];
    let mut tables = broken.clone();
    for (place, call) in calls.iter().enumerate() {
        let answer = call(&mut tables);
        assert_eq!(
            answer,
            Err(Refusal::OutOfOrder),
            "break {what}, call {place}"
        );
        assert!(tables == *broken, "break {what}, call {place}");
    }
    let seven = Tally {
        steps: 7,
        moved: 7,
        failed: 7,
    };
    let mut tally = seven;
    assert_eq!(settle(&mut tables, 9, &mut tally), Err(Refusal::OutOfOrder));
    assert!(tables == *broken && tally == seven);
    assert_eq!(open(&mut tables, 5), Err(Refusal::OutOfRange));
    assert!(tables == *broken);
    assert!(open(&mut tables, 2).is_ok() && in_order(&tables));
}

fn break_clause(clause: fn(&Tables) -> bool, changes: &[Change]) {
    for (what, change) in changes.iter().enumerate() {
        let mut tables = rich();
        assert!(clause(&tables));
        change(&mut tables);
        assert!(!clause(&tables), "break {what} is not seen");
        refused_by_all(&tables, what);
    }
}

fn bad_names() -> [Name; 6] {
    let mut unused = Name::new(b"a");
    unused.bytes[7] = 1;
    let mut short = Name::new(b"ab");
    short.length = 3;
    let long = Name {
        length: 9,
        bytes: *b"12345678",
    };
    [
        unused,
        short,
        long,
        Name::default(),
        Name::new(b"a/"),
        Name::new(b"\0a"),
    ]
}

#[test]
fn o1_counts_and_unused_slots() {
    break_clause(
        o1,
        &[
            |t| t.count = 0,
            |t| t.count = 5,
            |t| t.count = u32::MAX,
            |t| t.count = 2,
            |t| t.partitions[3].up = true,
            |t| t.partitions[3].last = 1,
            |t| t.partitions[3].entries.slots[9].number = 1,
            |t| t.partitions[0].entries.count = 65,
            |t| t.partitions[0].entries.count = usize::MAX,
            |t| t.partitions[0].backpointers.count = 65,
            |t| t.partitions[0].records.count = 17,
            |t| t.queues[0][1].count = 33,
            |t| t.partitions[0].entries.slots[2].directory = 1,
            |t| t.partitions[0].backpointers.slots[63].object = 1,
            |t| t.partitions[0].records.slots[15].stage = Stage::Held,
            |t| t.partitions[0].records.slots[15].transaction.kind = Kind::Create,
            |t| t.queues[0][1].slots[31].word = Word::Yes,
            |t| t.queues[3][0].slots[0].transaction.number = 1,
            |t| t.queues[3][0].count = 1,
            |t| t.queues[0][3] = t.queues[0][1].clone(),
        ],
    );
}

#[test]
fn o1_numbers_and_stages() {
    break_clause(
        o1,
        &[
            |t| t.partitions[0].entries.slots[1].directory = 4,
            |t| t.partitions[0].entries.slots[1].object.partition = 3,
            |t| t.partitions[0].entries.slots[1].object.number = 64,
            |t| t.partitions[1].backpointers.slots[1].object = 64,
            |t| t.partitions[1].backpointers.slots[1].parent = 3,
            |t| t.partitions[1].backpointers.slots[1].parent = u32::MAX,
            |t| t.partitions[1].backpointers.slots[1].directory = 4,
            |t| t.partitions[0].records.slots[1].transaction.directory = 4,
            |t| {
                t.partitions[0].records.slots[1]
                    .transaction
                    .object
                    .partition = 3
            },
            |t| t.partitions[0].records.slots[1].transaction.object.number = 64,
            |t| t.partitions[0].records.slots[0].stage = Stage::Cleared,
            |t| t.partitions[0].records.slots[1].stage = Stage::Cleared,
            |t| {
                t.partitions[0].records.slots[0].transaction.kind = Kind::Unlink;
                t.partitions[0].records.slots[0].stage = Stage::Held;
            },
            |t| {
                t.partitions[0].records.slots[0].transaction.kind = Kind::Unlink;
                t.partitions[0].records.slots[0].stage = Stage::Refused(Reason::LinkToIdle);
            },
        ],
    );
}

#[test]
fn o1_names() {
    for (what, name) in bad_names().into_iter().enumerate() {
        let holders: [fn(&mut Tables) -> &mut Name; 3] = [
            |t| &mut t.partitions[0].entries.slots[1].name,
            |t| &mut t.partitions[1].backpointers.slots[1].name,
            |t| &mut t.partitions[2].records.slots[0].transaction.name,
        ];
        for holder in holders {
            let mut tables = rich();
            *holder(&mut tables) = name;
            assert!(!o1(&tables), "name {what}");
            refused_by_all(&tables, what);
        }
    }
}

#[test]
fn o2_entries() {
    break_clause(
        o2,
        &[
            |t| t.partitions[0].entries.slots[1].number = 1,
            |t| {
                let first = t.partitions[0].entries.slots[0];
                t.partitions[0].entries.slots[1].name = first.name;
                t.partitions[0].entries.slots[1].directory = first.directory;
            },
        ],
    );
    let mut tables = rich();
    tables.partitions[0].entries.slots[1].name = Name::new(b"a");
    assert!(in_order(&tables), "the same name in another directory");
}

#[test]
fn o3_records() {
    break_clause(
        o3,
        &[
            |t| t.partitions[0].records.slots[1].transaction.number = 3,
            |t| {
                let twin = t.partitions[2].records.slots[0];
                t.partitions[2].records.push(twin);
            },
        ],
    );
}

#[test]
fn o4_backpointers_and_numbers() {
    break_clause(
        o4,
        &[
            |t| {
                let mut twin = t.partitions[1].backpointers.slots[0];
                twin.number = 4;
                t.partitions[1].backpointers.push(twin);
            },
            |t| t.partitions[1].backpointers.slots[0].number = 0,
            |t| t.partitions[1].backpointers.slots[0].number = 5,
            |t| t.partitions[1].backpointers.slots[0].parent = 1,
            |t| t.partitions[0].entries.slots[0].number = 0,
            |t| t.partitions[0].entries.slots[0].number = 5,
            |t| t.partitions[2].records.slots[0].transaction.number = 0,
            |t| t.partitions[2].records.slots[0].transaction.number = 2,
            |t| t.partitions[2].last = 0,
            |t| t.partitions[0].last = 3,
        ],
    );
    let mut tables = rich();
    tables.partitions[1].backpointers.slots[0].number = 4;
    assert!(in_order(&tables), "back-pointers may share a number");
}

/// Entries up to this many in partition 0, with numbers from 10 on.
fn fill(partition: &mut Partition, count: usize) {
    partition.last = 100;
    while partition.entries.count < count {
        let number = 10 + partition.entries.count as u32;
        partition.entries.push(Entry {
            directory: 3,
            name: Name::new(&[b'f', 100 + number as u8]),
            object: object(1, 5),
            number,
        });
    }
}

#[test]
fn o5_entries_and_promised_ones() {
    break_clause(
        o5,
        &[
            |t| fill(&mut t.partitions[0], 63),
            |t| fill(&mut t.partitions[0], 64),
        ],
    );
    let mut tables = rich();
    fill(&mut tables.partitions[0], 62);
    assert!(in_order(&tables), "62 and two promised");
    let mut tables = rich();
    fill(&mut tables.partitions[0], 63);
    tables.partitions[0].entries.slots[40].number = 4;
    assert!(
        in_order(&tables),
        "63 and one promised, as an entry bears the other's number"
    );
}

#[test]
fn o6_messages() {
    break_clause(
        o6,
        &[
            |t| t.queues[0][1].clear(),
            |t| t.queues[1][0].clear(),
            |t| t.partitions[0].records.slots[1].stage = Stage::Ready,
            |t| t.partitions[0].records.slots[0].stage = Stage::Held,
            |t| {
                let twin = t.queues[0][1].slots[0];
                t.queues[0][1].push(twin);
            },
            |t| {
                let mut answer = t.queues[0][1].slots[0];
                answer.word = Word::No(Some(Reason::LinkToIdle));
                t.queues[1][0].push(answer);
            },
            |t| {
                let (there, back) = (t.queues[0][1].clone(), t.queues[1][0].clone());
                t.queues[0][1] = back;
                t.queues[1][0] = there;
            },
            |t| {
                let request = t.queues[0][1].remove(0);
                t.queues[0][0].push(request);
            },
            |t| t.queues[1][0].slots[0].word = Word::No(None),
            |t| t.queues[0][1].slots[0].word = Word::Yes,
            |t| t.queues[0][1].slots[0].transaction.kind = Kind::Create,
            |t| t.queues[0][1].slots[0].transaction.directory = 1,
            |t| t.queues[0][1].slots[0].transaction.name = Name::new(b"x"),
            |t| t.queues[0][1].slots[0].transaction.object.number = 1,
            |t| t.queues[0][1].slots[0].transaction.object.partition = 2,
            |t| t.queues[0][1].slots[0].transaction.object.partition = 9,
            |t| t.queues[0][1].slots[0].transaction.number = 3,
        ],
    );
}

/// A sent unlink of partition 1 with its answer on the way.
fn answered_unlink(word: Word) -> Tables {
    let mut tables = rich();
    let transaction = Transaction {
        kind: Kind::Unlink,
        directory: 0,
        name: Name::new(b"u"),
        object: object(0, 1),
        number: 1,
    };
    let stage = Stage::Sent;
    tables.partitions[1].last = 1;
    tables.partitions[1]
        .records
        .push(Record { transaction, stage });
    tables.queues[0][1].push(Message { transaction, word });
    tables
}

#[test]
fn o6_a_no_has_a_reason_exactly_when_it_is_to_an_add() {
    assert!(in_order(&answered_unlink(Word::Yes)));
    assert!(in_order(&answered_unlink(Word::No(None))));
    let broken = answered_unlink(Word::No(Some(Reason::OtherNumber)));
    assert!(!o6(&broken));
    refused_by_all(&broken, 0);
    let mut tables = rich();
    tables.queues[1][0].slots[0].word = Word::No(Some(Reason::OtherNumber));
    assert!(in_order(&tables));
}

#[test]
fn o7_down_partitions() {
    break_clause(
        o7,
        &[
            |t| t.partitions[0].up = false,
            |t| t.partitions[1].up = false,
            |t| t.partitions[2].records.slots[0].stage = Stage::Held,
            |t| {
                let transaction = t.partitions[2].records.slots[0].transaction;
                t.partitions[2].records.slots[0].stage = Stage::Sent;
                let word = Word::Request;
                t.queues[2][1].push(Message { transaction, word });
            },
        ],
    );
}
