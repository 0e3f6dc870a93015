//! The test of the tables' order, clause by clause. O1 is tested first: the others look
//! things up by numbers that O1 has found to be in range.

use crate::tables::{
    BackPointer, Entry, Kind, List, Message, Name, Object, Partition, Record, Stage, Tables,
    Transaction, Word, DIRECTORIES, OBJECTS, PARTITIONS,
};

pub fn in_order(tables: &Tables) -> bool {
    o1(tables) && o2(tables) && o3(tables) && o4(tables) && o5(tables) && o6(tables) && o7(tables)
}

/// All numbers, counts, names, stages and unused slots. What a message holds is left to O6,
/// which finds the same in a record.
pub fn o1(tables: &Tables) -> bool {
    let count = tables.count as usize;
    if !(1..=PARTITIONS).contains(&count) {
        return false;
    }
    let (present, absent) = tables.partitions.split_at(count);
    present.iter().all(|p| partition_sound(tables, p))
        && absent.iter().all(|p| *p == Partition::default())
        && tables.queues.iter().flatten().all(List::is_sound)
        && absent_queues_empty(tables, count)
}

fn absent_queues_empty(tables: &Tables, count: usize) -> bool {
    let pairs = (0..PARTITIONS).flat_map(|s| (0..PARTITIONS).map(move |r| (s, r)));
    pairs
        .filter(|(s, r)| *s >= count || *r >= count)
        .all(|(s, r)| tables.queues[s][r].count == 0)
}

fn partition_sound(tables: &Tables, partition: &Partition) -> bool {
    partition.entries.is_sound()
        && partition.backpointers.is_sound()
        && partition.records.is_sound()
        && partition
            .entries
            .items()
            .iter()
            .all(|e| entry_sound(tables, e))
        && partition
            .backpointers
            .items()
            .iter()
            .all(|b| backpointer_sound(tables, b))
        && partition
            .records
            .items()
            .iter()
            .all(|r| record_sound(tables, r))
}

fn name_sound(directory: u32, name: &Name) -> bool {
    directory < DIRECTORIES && name.is_good()
}

fn object_sound(tables: &Tables, object: &Object) -> bool {
    tables.has(object.partition) && object.number < OBJECTS
}

fn entry_sound(tables: &Tables, entry: &Entry) -> bool {
    name_sound(entry.directory, &entry.name) && object_sound(tables, &entry.object)
}

fn backpointer_sound(tables: &Tables, backpointer: &BackPointer) -> bool {
    name_sound(backpointer.directory, &backpointer.name)
        && backpointer.object < OBJECTS
        && tables.has(backpointer.parent)
}

fn record_sound(tables: &Tables, record: &Record) -> bool {
    let Transaction {
        kind,
        directory,
        name,
        object,
        ..
    } = &record.transaction;
    name_sound(*directory, name) && object_sound(tables, object) && stage_fits(*kind, record.stage)
}

fn stage_fits(kind: Kind, stage: Stage) -> bool {
    match stage {
        Stage::Ready | Stage::Sent => true,
        Stage::Held | Stage::Refused(_) => kind != Kind::Unlink,
        Stage::Cleared => kind == Kind::Unlink,
    }
}

fn present(tables: &Tables) -> &[Partition] {
    &tables.partitions[..tables.count as usize]
}

fn no_two<T>(items: &[T], share: impl Fn(&T, &T) -> bool) -> bool {
    let mut places = items.iter().enumerate();
    places.all(|(place, item)| items[..place].iter().all(|other| !share(item, other)))
}

/// No two entries of a partition share directory and name, or number.
pub fn o2(tables: &Tables) -> bool {
    present(tables).iter().all(|partition| {
        no_two(partition.entries.items(), |a, b| {
            a.number == b.number || (a.directory == b.directory && a.name == b.name)
        })
    })
}

/// No two records of a partition share a number.
pub fn o3(tables: &Tables) -> bool {
    present(tables).iter().all(|partition| {
        no_two(partition.records.items(), |a, b| {
            a.transaction.number == b.transaction.number
        })
    })
}

/// No two back-pointers share object, parent, directory and name; no number is 0 or above
/// its giver's last. The giver is the parent for a back-pointer, else the partition itself.
pub fn o4(tables: &Tables) -> bool {
    present(tables).iter().all(|partition| {
        let given = |number: u32| (1..=partition.last).contains(&number);
        let given_by_parent =
            |b: &BackPointer| (1..=tables.partition(b.parent).last).contains(&b.number);
        no_two(partition.backpointers.items(), same_place)
            && partition.backpointers.items().iter().all(given_by_parent)
            && partition.entries.items().iter().all(|e| given(e.number))
            && partition
                .records
                .items()
                .iter()
                .all(|r| given(r.transaction.number))
    })
}

fn same_place(a: &BackPointer, b: &BackPointer) -> bool {
    a.object == b.object && a.parent == b.parent && a.directory == b.directory && a.name == b.name
}

/// Entries, plus link and create records whose number no entry bears, are at most 64.
pub fn o5(tables: &Tables) -> bool {
    present(tables)
        .iter()
        .all(|partition| partition.entries_and_promises() <= crate::tables::ENTRIES)
}

/// Each message has what a record in stage sent has, and each such record has exactly one
/// message: its request, or the answer.
pub fn o6(tables: &Tables) -> bool {
    (0..tables.count).all(|partition| {
        (0..tables.count).all(|other| {
            let queue = tables.queue(partition, other);
            let mut messages = queue.items().iter();
            messages.all(|m| message_has_record(tables, partition, other, m))
        }) && sent_records_have_one_message(tables, partition)
    })
}

fn message_has_record(tables: &Tables, sender: u32, receiver: u32, message: &Message) -> bool {
    let (asker, holder) = match message.word {
        Word::Request => (sender, receiver),
        Word::Yes | Word::No(_) => (receiver, sender),
    };
    let wanted = Record {
        transaction: message.transaction,
        stage: Stage::Sent,
    };
    word_fits(message)
        && message.transaction.object.partition == holder
        && tables.partition(asker).records.items().contains(&wanted)
}

fn word_fits(message: &Message) -> bool {
    match message.word {
        Word::Request | Word::Yes => true,
        Word::No(reason) => reason.is_none() == (message.transaction.kind == Kind::Unlink),
    }
}

fn sent_records_have_one_message(tables: &Tables, asker: u32) -> bool {
    let records = tables.partition(asker).records.items().iter();
    records.filter(|r| r.stage == Stage::Sent).all(|record| {
        let holder = record.transaction.object.partition;
        let about = |m: &&Message| m.transaction == record.transaction;
        let is_request = |m: &&Message| m.word == Word::Request;
        let there = tables.queue(asker, holder).items().iter().filter(about);
        let back = tables.queue(holder, asker).items().iter().filter(about);
        there.filter(is_request).count() + back.filter(|m| !is_request(m)).count() == 1
    })
}

/// A down partition has no messages from or to it and all its records ready.
pub fn o7(tables: &Tables) -> bool {
    (0..tables.count)
        .filter(|p| !tables.partition(*p).up)
        .all(|down| {
            let mut others = 0..tables.count;
            let mut records = tables.partition(down).records.items().iter();
            others.all(|other| {
                tables.queue(down, other).count == 0 && tables.queue(other, down).count == 0
            }) && records.all(|r| r.stage == Stage::Ready)
        })
}
