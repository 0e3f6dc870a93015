//! The check of a lone picture as the rules document has it: the reader, record by record, gives
//! 17 to 21; then 16 for O2, O3, O5 and the first half of O4.

use crate::tables::{
    BackPointer, Entry, Head, Name, Record, Tables, BACK_POINTERS, CREATE, DIRECTORIES, ENTRIES,
    LINK, OBJECTS, PARTITIONS, RECORDS, UNLINK,
};

pub const OUT_OF_ORDER: u32 = 16;
pub const ENDS_EARLY: u32 = 17;
pub const MARK_NOT_ALLOWED: u32 = 18;
pub const OUT_OF_RANGE: u32 = 19;
pub const COUNT_WRONG: u32 = 20;
pub const BYTES_AFTER: u32 = 21;

/// 0 for a picture that is accepted, else the number of its refusal.
pub fn check(bytes: &[u8]) -> u32 {
    match read(bytes) {
        Err(refusal) => refusal,
        Ok(tables) if in_order(&tables) => 0,
        Ok(_) => OUT_OF_ORDER,
    }
}

/// The bytes of the picture that are not yet read.
struct Rest<'a>(&'a [u8]);

impl<'a> Rest<'a> {
    /// Under two bytes left 17, mark 18.
    fn mark(&mut self, allowed: &[&'static [u8; 2]]) -> Result<&'static [u8; 2], u32> {
        let (mark, rest) = self.0.split_first_chunk().ok_or(ENDS_EARLY)?;
        self.0 = rest;
        let found = allowed.iter().find(|known| **known == mark);
        found.copied().ok_or(MARK_NOT_ALLOWED)
    }

    /// Record short 17.
    fn fields<const N: usize>(&mut self) -> Result<&'a [u8; N], u32> {
        let (fields, rest) = self.0.split_first_chunk().ok_or(ENDS_EARLY)?;
        self.0 = rest;
        Ok(fields)
    }
}

fn read(bytes: &[u8]) -> Result<Tables, u32> {
    let mut rest = Rest(bytes);
    rest.mark(&[b"HD"])?;
    let mut tables = Tables::new(head(rest.fields()?)?);
    let mut allowed: &[_] = &[b"EN", b"BP", b"LG", b"ED"];
    loop {
        match rest.mark(allowed)? {
            b"EN" => {
                let entry = entry(rest.fields()?, &tables.head)?;
                add(&mut tables.entries, entry, ENTRIES)?;
            }
            b"BP" => {
                let back_pointer = back_pointer(rest.fields()?, &tables.head)?;
                add(&mut tables.back_pointers, back_pointer, BACK_POINTERS)?;
                allowed = &[b"BP", b"LG", b"ED"];
            }
            b"LG" => {
                let record = record(rest.fields()?, &tables.head)?;
                add(&mut tables.records, record, RECORDS)?;
                allowed = &[b"LG", b"ED"];
            }
            _ => break,
        }
    }
    let closing = u16::from_be_bytes(*rest.fields()?);
    demand(usize::from(closing) == tables.count(), COUNT_WRONG)?;
    demand(rest.0.is_empty(), BYTES_AFTER)?;
    Ok(tables)
}

fn demand(holds: bool, refusal: u32) -> Result<(), u32> {
    if holds {
        Ok(())
    } else {
        Err(refusal)
    }
}

fn add<T>(items: &mut Vec<T>, item: T, most: usize) -> Result<(), u32> {
    demand(items.len() < most, OUT_OF_RANGE)?;
    items.push(item);
    Ok(())
}

fn head(fields: &[u8; 6]) -> Result<Head, u32> {
    let [partition, partitions, last @ ..] = *fields;
    let last = u32::from_be_bytes(last);
    let good = (1..=PARTITIONS).contains(&partitions) && partition < partitions;
    demand(good, OUT_OF_RANGE)?;
    Ok(Head {
        partition,
        partitions,
        last,
    })
}

fn entry(fields: &[u8; 16], head: &Head) -> Result<Entry, u32> {
    let [directory, object_partition, object, named @ ..] = *fields;
    let (name, number) = named_and_numbered(named)?;
    let good = directory < DIRECTORIES
        && object_partition < head.partitions
        && object < OBJECTS
        && number <= head.last;
    demand(good, OUT_OF_RANGE)?;
    Ok(Entry {
        directory,
        object_partition,
        object,
        name,
        number,
    })
}

fn back_pointer(fields: &[u8; 16], head: &Head) -> Result<BackPointer, u32> {
    let [object, parent, directory, named @ ..] = *fields;
    let (name, number) = named_and_numbered(named)?;
    let good = object < OBJECTS && parent < head.partitions && directory < DIRECTORIES;
    demand(good, OUT_OF_RANGE)?;
    Ok(BackPointer {
        object,
        parent,
        directory,
        name,
        number,
    })
}

fn record(fields: &[u8; 17], head: &Head) -> Result<Record, u32> {
    let [kind, directory, object_partition, object, named @ ..] = *fields;
    let (name, number) = named_and_numbered(named)?;
    let good = [LINK, CREATE, UNLINK].contains(&kind)
        && directory < DIRECTORIES
        && object_partition < head.partitions
        && object < OBJECTS
        && number <= head.last;
    demand(good, OUT_OF_RANGE)?;
    Ok(Record {
        kind,
        directory,
        object_partition,
        object,
        name,
        number,
    })
}

/// The name and the number that close an entry, a back-pointer and a record; neither may be bad,
/// and no number is 0.
fn named_and_numbered(fields: [u8; 13]) -> Result<(Name, u32), u32> {
    let [length, bytes_and_number @ ..] = fields;
    let [b0, b1, b2, b3, b4, b5, b6, b7, number @ ..] = bytes_and_number;
    let bytes = [b0, b1, b2, b3, b4, b5, b6, b7];
    let number = u32::from_be_bytes(number);
    demand(good_name(length, &bytes) && number != 0, OUT_OF_RANGE)?;
    Ok((Name { length, bytes }, number))
}

/// Length 1 to 8; no byte 0 or 47 within it; the unused ones zero.
fn good_name(length: u8, bytes: &[u8; 8]) -> bool {
    if !(1..=8).contains(&length) {
        return false;
    }
    let (within, unused) = bytes.split_at(usize::from(length));
    within.iter().all(|byte| *byte != 0 && *byte != 47) && unused.iter().all(|byte| *byte == 0)
}

fn in_order(tables: &Tables) -> bool {
    let entries = no_two(&tables.entries, |a, b| {
        a.number == b.number || (a.name == b.name && a.directory == b.directory)
    });
    let records = no_two(&tables.records, |a, b| a.number == b.number);
    let back_pointers = no_two(&tables.back_pointers, |a, b| {
        a.name == b.name
            && a.object == b.object
            && a.parent == b.parent
            && a.directory == b.directory
    });
    entries && records && back_pointers && tables.entries.len() + promised(tables) <= ENTRIES
}

fn no_two<T>(items: &[T], clash: impl Fn(&T, &T) -> bool) -> bool {
    let alone = |(place, item)| !items[..place].iter().any(|earlier| clash(earlier, item));
    items.iter().enumerate().all(alone)
}

/// Link and create records whose number no entry bears.
fn promised(tables: &Tables) -> usize {
    let borne = |number| tables.entries.iter().any(|entry| entry.number == number);
    let enters = |record: &&Record| record.kind != UNLINK && !borne(record.number);
    tables.records.iter().filter(enters).count()
}
