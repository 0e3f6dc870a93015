//! The nine events. Each tests the tables' order first and then its refusals in the rules'
//! order; a refusal changes nothing.

use crate::answer::{ensure, Done, Outcome, Refusal, Reply};
use crate::order::in_order;
use crate::tables::{
    BackPointer, Entry, Kind, Message, Name, Object, Partition, Reason, Record, Stage, Tables,
    Transaction, Word, DIRECTORIES, ENTRIES, LAST_NUMBER, OBJECTS, PARTITIONS,
};

pub fn link(
    tables: &mut Tables,
    partition: u32,
    directory: u32,
    name: &Name,
    object: Object,
) -> Outcome {
    add(tables, Kind::Link, partition, directory, name, object)
}

pub fn create(
    tables: &mut Tables,
    partition: u32,
    directory: u32,
    name: &Name,
    object: Object,
) -> Outcome {
    add(tables, Kind::Create, partition, directory, name, object)
}

/// Link or create: gives the next number and opens a ready record.
fn add(
    tables: &mut Tables,
    kind: Kind,
    partition: u32,
    directory: u32,
    name: &Name,
    object: Object,
) -> Outcome {
    ensure(in_order(tables), Refusal::OutOfOrder)?;
    let place_in_range = tables.has(partition) && directory < DIRECTORIES;
    let object_in_range = tables.has(object.partition) && object.number < OBJECTS;
    ensure(place_in_range && object_in_range, Refusal::OutOfRange)?;
    ensure(name.is_good(), Refusal::BadName)?;
    let home = tables.partition_mut(partition);
    ensure(home.up, Refusal::Down)?;
    ensure(
        home.entry_under(directory, name).is_none(),
        Refusal::NameExists,
    )?;
    ensure(home.last < LAST_NUMBER, Refusal::NumbersSpent)?;
    ensure(!home.records.is_full(), Refusal::LogFull)?;
    ensure(home.entries_and_promises() < ENTRIES, Refusal::EntriesFull)?;
    home.last += 1;
    let transaction = Transaction {
        kind,
        directory,
        name: *name,
        object,
        number: home.last,
    };
    home.records.push(ready(transaction));
    Ok(Done::quiet(home.last))
}

fn ready(transaction: Transaction) -> Record {
    Record {
        transaction,
        stage: Stage::Ready,
    }
}

/// Opens a ready record with the entry's object and number. No new number is given.
pub fn unlink(tables: &mut Tables, partition: u32, directory: u32, name: &Name) -> Outcome {
    ensure(in_order(tables), Refusal::OutOfOrder)?;
    let place_in_range = tables.has(partition) && directory < DIRECTORIES;
    ensure(place_in_range, Refusal::OutOfRange)?;
    ensure(name.is_good(), Refusal::BadName)?;
    let home = tables.partition_mut(partition);
    ensure(home.up, Refusal::Down)?;
    let place = home
        .entry_under(directory, name)
        .ok_or(Refusal::NameAbsent)?;
    let Entry { object, number, .. } = home.entries.items()[place];
    ensure(
        home.record_numbered(number).is_none(),
        Refusal::EntryInRecord,
    )?;
    ensure(!home.records.is_full(), Refusal::LogFull)?;
    let transaction = Transaction {
        kind: Kind::Unlink,
        directory,
        name: *name,
        object,
        number,
    };
    home.records.push(ready(transaction));
    Ok(Done::quiet(number))
}

/// What an advance does with its record.
enum Move {
    Send,
    Enter,
    TakeOut(usize),
    Turn,
    Close(Reply),
}

pub fn advance(tables: &mut Tables, partition: u32, number: u32) -> Outcome {
    ensure(in_order(tables), Refusal::OutOfOrder)?;
    advance_in_order(tables, partition, number)
}

/// Advance, for tables already found in order.
pub(crate) fn advance_in_order(tables: &mut Tables, partition: u32, number: u32) -> Outcome {
    ensure(tables.has(partition), Refusal::OutOfRange)?;
    let home = tables.partition(partition);
    ensure(home.up, Refusal::Down)?;
    let place = home.record_numbered(number).ok_or(Refusal::NoRecord)?;
    let record = home.records.items()[place];
    ensure(record.stage != Stage::Sent, Refusal::RecordSent)?;
    let step = next_move(home, &record);
    if matches!(step, Move::Send) {
        let holder = tables.partition(record.transaction.object.partition);
        ensure(holder.up, Refusal::SendToDown)?;
    }
    let reply = make_move(tables, partition, place, step);
    Ok(Done { number, reply })
}

/// The move of a record that is not sent.
fn next_move(home: &Partition, record: &Record) -> Move {
    let Transaction {
        kind,
        directory,
        name,
        number,
        ..
    } = &record.transaction;
    let entry = home.entry_numbered(*number);
    match (kind, record.stage) {
        (Kind::Unlink, Stage::Ready) => entry.map_or(Move::Send, Move::TakeOut),
        (Kind::Unlink, _) => Move::Close(Reply::None),
        _ if entry.is_some() => Move::Close(Reply::None),
        (_, Stage::Ready) => Move::Send,
        (_, Stage::Held) if home.entry_under(*directory, name).is_none() => Move::Enter,
        (_, Stage::Held) => Move::Turn,
        (_, Stage::Refused(reason)) => Move::Close(Reply::Failed(reason)),
        (_, Stage::Sent | Stage::Cleared) => unreachable!("not sent, and in order not cleared"),
    }
}

fn make_move(tables: &mut Tables, partition: u32, place: usize, step: Move) -> Reply {
    let home = tables.partition_mut(partition);
    let record = &mut home.records.items_mut()[place];
    let transaction = record.transaction;
    match step {
        Move::Send => {
            record.stage = Stage::Sent;
            let queue = tables.queue_mut(partition, transaction.object.partition);
            queue.push(Message {
                transaction,
                word: Word::Request,
            });
            Reply::None
        }
        Move::Enter => {
            home.entries.push(Entry {
                directory: transaction.directory,
                name: transaction.name,
                object: transaction.object,
                number: transaction.number,
            });
            Reply::Moved
        }
        Move::TakeOut(entry) => {
            home.entries.remove(entry);
            Reply::Moved
        }
        Move::Turn => {
            record.transaction.kind = Kind::Unlink;
            record.stage = Stage::Ready;
            Reply::Turned
        }
        Move::Close(reply) => {
            home.records.remove(place);
            reply
        }
    }
}

pub fn deliver(tables: &mut Tables, sender: u32, receiver: u32) -> Outcome {
    ensure(in_order(tables), Refusal::OutOfOrder)?;
    deliver_in_order(tables, sender, receiver)
}

/// Deliver, for tables already found in order.
pub(crate) fn deliver_in_order(tables: &mut Tables, sender: u32, receiver: u32) -> Outcome {
    let in_range = tables.has(sender) && tables.has(receiver);
    ensure(in_range, Refusal::OutOfRange)?;
    ensure(tables.partition(receiver).up, Refusal::Down)?;
    ensure(
        tables.queue(sender, receiver).count > 0,
        Refusal::QueueEmpty,
    )?;
    let Message { transaction, word } = tables.queue_mut(sender, receiver).remove(0);
    let home = tables.partition_mut(receiver);
    if word == Word::Request {
        let word = if transaction.kind == Kind::Unlink {
            remove_backpointer(home, sender, &transaction)
        } else {
            add_backpointer(home, sender, &transaction)
        };
        let back = tables.queue_mut(receiver, sender);
        back.push(Message { transaction, word });
    } else {
        take_answer(home, &transaction, word);
    }
    Ok(Done::quiet(transaction.number))
}

/// A request to add, at the object's partition; gives the answer.
fn add_backpointer(home: &mut Partition, parent: u32, transaction: &Transaction) -> Word {
    let wanted = backpointer(parent, transaction);
    let mut standing = home.backpointers.items().iter();
    let same_place = standing.find(|b| {
        BackPointer {
            number: wanted.number,
            ..**b
        } == wanted
    });
    let idle = home.is_idle(wanted.object);
    let reason = match same_place {
        Some(b) if b.number == wanted.number => return Word::Yes,
        Some(_) => Reason::OtherNumber,
        None if transaction.kind == Kind::Link && idle => Reason::LinkToIdle,
        None if transaction.kind == Kind::Create && !idle => Reason::CreateInUse,
        None if home.backpointers.is_full() => Reason::BackPointersFull,
        None => {
            home.backpointers.push(wanted);
            return Word::Yes;
        }
    };
    Word::No(Some(reason))
}

/// A request to remove, at the object's partition; gives the answer.
fn remove_backpointer(home: &mut Partition, parent: u32, transaction: &Transaction) -> Word {
    let wanted = backpointer(parent, transaction);
    let mut standing = home.backpointers.items().iter();
    match standing.position(|b| *b == wanted) {
        Some(place) => {
            home.backpointers.remove(place);
            Word::Yes
        }
        None => Word::No(None),
    }
}

fn backpointer(parent: u32, transaction: &Transaction) -> BackPointer {
    BackPointer {
        object: transaction.object.number,
        parent,
        directory: transaction.directory,
        name: transaction.name,
        number: transaction.number,
    }
}

/// A delivered answer, at the partition that asked.
fn take_answer(home: &mut Partition, transaction: &Transaction, word: Word) {
    let mut records = home.records.items_mut().iter_mut();
    let record = records.find(|r| r.transaction == *transaction);
    record.expect("in order, the answer has its record").stage = match word {
        _ if transaction.kind == Kind::Unlink => Stage::Cleared,
        Word::No(Some(reason)) => Stage::Refused(reason),
        _ => Stage::Held,
    };
}

/// Drops both queues between two partitions.
pub fn cut(tables: &mut Tables, one: u32, other: u32) -> Outcome {
    ensure(in_order(tables), Refusal::OutOfOrder)?;
    ensure(tables.has(one) && tables.has(other), Refusal::OutOfRange)?;
    ensure(one != other, Refusal::CutWithItself)?;
    let both_up = tables.partition(one).up && tables.partition(other).up;
    ensure(both_up, Refusal::Down)?;
    for (sender, receiver) in [(one, other), (other, one)] {
        tables.queue_mut(sender, receiver).clear();
        unsend(tables.partition_mut(sender), receiver);
    }
    Ok(Done::quiet(0))
}

/// The partition's sent records whose object is on the other become ready.
fn unsend(home: &mut Partition, other: u32) {
    for record in home.records.items_mut() {
        if record.stage == Stage::Sent && record.transaction.object.partition == other {
            record.stage = Stage::Ready;
        }
    }
}

/// The partition goes down; stages and queues are lost.
pub fn crash(tables: &mut Tables, partition: u32) -> Outcome {
    ensure(in_order(tables), Refusal::OutOfOrder)?;
    ensure(tables.has(partition), Refusal::OutOfRange)?;
    ensure(tables.partition(partition).up, Refusal::Down)?;
    for other in 0..tables.count {
        tables.queue_mut(partition, other).clear();
        tables.queue_mut(other, partition).clear();
        unsend(tables.partition_mut(other), partition);
    }
    let home = tables.partition_mut(partition);
    home.up = false;
    for record in home.records.items_mut() {
        record.stage = Stage::Ready;
    }
    Ok(Done::quiet(0))
}

pub fn recover(tables: &mut Tables, partition: u32) -> Outcome {
    ensure(in_order(tables), Refusal::OutOfOrder)?;
    ensure(tables.has(partition), Refusal::OutOfRange)?;
    let home = tables.partition_mut(partition);
    ensure(!home.up, Refusal::Up)?;
    home.up = true;
    Ok(Done::quiet(0))
}

/// The fresh tables, all up. The tables before are not tested.
pub fn open(tables: &mut Tables, count: u32) -> Outcome {
    let in_range = (1..=PARTITIONS as u32).contains(&count);
    ensure(in_range, Refusal::OutOfRange)?;
    *tables = Tables::fresh(count);
    Ok(Done::quiet(0))
}
