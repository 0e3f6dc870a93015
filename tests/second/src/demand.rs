//! Demand 3 as checks on tables: names and back-pointers agree up to open records, and once
//! all partitions are up every order of steps empties the logs within eight steps a record.

use std::collections::BTreeMap;

use crate::events::{advance_in_order, deliver_in_order, recover};
use crate::order::in_order;
use crate::random::Random;
use crate::tables::{BackPointer, Entry, Object, Tables, Transaction, Word};

/// The most steps a record may take once all partitions are up.
const STEPS: u32 = 8;

/// Everything below, for tables reached from a fresh start.
pub fn check(tables: &Tables, seed: u64) -> Result<(), String> {
    require(in_order(tables), || "the tables are out of order".into())?;
    first_sentence(tables)?;
    at_rest(tables)?;
    second_sentence(tables, seed)
}

fn require(condition: bool, what: impl Fn() -> String) -> Result<(), String> {
    if condition {
        Ok(())
    } else {
        Err(what())
    }
}

fn backpointer_of(parent: u32, entry: &Entry) -> BackPointer {
    BackPointer {
        object: entry.object.number,
        parent,
        directory: entry.directory,
        name: entry.name,
        number: entry.number,
    }
}

fn entry_of(partition: u32, backpointer: &BackPointer) -> Entry {
    Entry {
        directory: backpointer.directory,
        name: backpointer.name,
        object: Object {
            partition,
            number: backpointer.object,
        },
        number: backpointer.number,
    }
}

fn has_name(tables: &Tables, partition: u32, backpointer: &BackPointer) -> bool {
    let entry = entry_of(partition, backpointer);
    tables
        .partition(backpointer.parent)
        .entries
        .items()
        .contains(&entry)
}

fn has_record(tables: &Tables, partition: u32, backpointer: &BackPointer) -> bool {
    let entry = entry_of(partition, backpointer);
    let mut records = tables.partition(backpointer.parent).records.items().iter();
    records.any(|record| {
        let Transaction {
            directory,
            name,
            object,
            number,
            ..
        } = record.transaction;
        entry
            == Entry {
                directory,
                name,
                object,
                number,
            }
    })
}

/// Every name's object holds the back-pointer with that name's number, and every
/// back-pointer without its name has an open log record.
pub fn first_sentence(tables: &Tables) -> Result<(), String> {
    for p in 0..tables.count {
        for entry in tables.partition(p).entries.items() {
            let wanted = backpointer_of(p, entry);
            let held = tables
                .partition(entry.object.partition)
                .backpointers
                .items();
            require(held.contains(&wanted), || {
                format!("partition {p}: a name without its back-pointer: {entry:?}")
            })?;
        }
        for backpointer in tables.partition(p).backpointers.items() {
            let kept = has_name(tables, p, backpointer) || has_record(tables, p, backpointer);
            require(kept, || {
                format!("partition {p}: a back-pointer without name and record: {backpointer:?}")
            })?;
        }
    }
    Ok(())
}

/// While all logs are empty, names and back-pointers match one for one.
pub fn at_rest(tables: &Tables) -> Result<(), String> {
    let totals = tables.totals();
    if totals.records > 0 {
        return Ok(());
    }
    first_sentence(tables)?;
    for p in 0..tables.count {
        for backpointer in tables.partition(p).backpointers.items() {
            require(has_name(tables, p, backpointer), || {
                format!("partition {p}: a back-pointer without its name at rest: {backpointer:?}")
            })?;
        }
    }
    require(totals.entries == totals.backpointers, || {
        "as many names as back-pointers are wanted at rest".into()
    })
}

/// From these tables, all partitions made up: steps in any order are accepted while a record
/// is open, at most eight for each record open at the start, and end with all logs empty.
pub fn second_sentence(tables: &Tables, seed: u64) -> Result<(), String> {
    let mut tables = tables.clone();
    let mut random = Random::new(seed);
    let mut taken = BTreeMap::new();
    for p in 0..tables.count {
        let up = tables.partition(p).up || recover(&mut tables, p).is_ok();
        require(up, || format!("partition {p} does not recover"))?;
        for record in tables.partition(p).records.items() {
            taken.insert((p, record.transaction.number), 0);
        }
    }
    while tables.totals().records > 0 {
        let owner = some_step(&mut tables, &mut random)
            .ok_or("no step is accepted while a record is open")?;
        let steps = taken
            .get_mut(&owner)
            .ok_or("a step of a record not open at the start")?;
        *steps += 1;
        require(*steps <= STEPS, || {
            format!("record {owner:?} takes more than eight steps")
        })?;
    }
    require(in_order(&tables), || "out of order after all steps".into())?;
    require(tables.totals().messages == 0, || {
        "messages are left after all steps".into()
    })?;
    at_rest(&tables)
}

#[derive(Clone, Copy)]
enum Step {
    Advance(u32, u32),
    Deliver(u32, u32),
}

/// Takes one accepted step, whichever comes first in a random order; tells whose record it
/// moved, by partition and number.
fn some_step(tables: &mut Tables, random: &mut Random) -> Option<(u32, u32)> {
    let mut steps = Vec::new();
    for p in 0..tables.count {
        let records = tables.partition(p).records.items().iter();
        steps.extend(records.map(|r| Step::Advance(p, r.transaction.number)));
        steps.extend((0..tables.count).map(|receiver| Step::Deliver(p, receiver)));
    }
    random.shuffle(&mut steps);
    steps.into_iter().find_map(|step| match step {
        Step::Advance(p, number) => {
            let done = advance_in_order(tables, p, number).ok()?;
            Some((p, done.number))
        }
        Step::Deliver(sender, receiver) => {
            let oldest = *tables.queue(sender, receiver).items().first()?;
            let done = deliver_in_order(tables, sender, receiver).ok()?;
            let is_request = oldest.word == Word::Request;
            Some((if is_request { sender } else { receiver }, done.number))
        }
    })
}
