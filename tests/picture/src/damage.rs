//! Damages to a picture, each of which takes it across one line of the rules or to either side of
//! it: some are done to its rows, with their fields, others to its bytes.

// All of one list have one type, also those that leave the number of rows or bytes as it is.
#![allow(clippy::ptr_arg)]

use std::iter::repeat_n;
use std::mem::discriminant;

use crate::random::Random;
use crate::tables::{Name, Row};

pub const ROW_DAMAGES: [fn(&mut Random, &mut Vec<Row>); 8] = [
    clash,
    bad_field,
    bad_field,
    bad_name,
    one_too_many,
    swap,
    close_wrong,
    repeat_or_drop,
];

pub const BYTE_DAMAGES: [fn(&mut Random, &mut Vec<u8>); 6] =
    [one_byte, several_bytes, mark, truncate, extend, noise];

/// Copies a row over another of its kind, which may keep its number or its name.
fn clash(random: &mut Random, rows: &mut Vec<Row>) {
    let (from, to) = (random.below(rows.len()), random.below(rows.len()));
    let (mut copy, mut own) = (rows[from], rows[to]);
    if discriminant(&copy) != discriminant(&own) {
        return;
    }
    if let (Some(copied), Some(own)) = (named(&mut copy), named(&mut own)) {
        match random.below(3) {
            0 => *copied.0 = *own.0,
            1 => *copied.1 = *own.1,
            _ => {}
        }
    }
    rows[to] = copy;
}

/// The name and the number of an entry, a back-pointer or a record.
fn named(row: &mut Row) -> Option<(&mut Name, &mut u32)> {
    match row {
        Row::Entry(entry) => Some((&mut entry.name, &mut entry.number)),
        Row::BackPointer(back) => Some((&mut back.name, &mut back.number)),
        Row::Record(record) => Some((&mut record.name, &mut record.number)),
        Row::Head(_) | Row::Close(_) => None,
    }
}

/// Puts a value from near a bound, or any at all, into one field.
fn bad_field(random: &mut Random, rows: &mut Vec<Row>) {
    let last = match rows.first() {
        Some(Row::Head(head)) => head.last,
        _ => 0,
    };
    let (any, any_number) = (random.byte(), random.draw());
    let small = random.pick(&[0, 1, 2, 3, 4, 5, 63, 64, any]);
    let number = random.pick(&[0, 1, last, last.wrapping_add(1), u32::MAX, any_number]);
    let place = random.below(rows.len());
    let field = random.below(5);
    match (&mut rows[place], field) {
        (Row::Head(h), 0) => h.partition = small,
        (Row::Head(h), 1) => h.partitions = small,
        (Row::Head(h), _) => h.last = number,
        (Row::Entry(e), 0) => e.directory = small,
        (Row::Entry(e), 1) => e.object_partition = small,
        (Row::Entry(e), 2) => e.object = small,
        (Row::Entry(e), _) => e.number = number,
        (Row::BackPointer(b), 0) => b.object = small,
        (Row::BackPointer(b), 1) => b.parent = small,
        (Row::BackPointer(b), 2) => b.directory = small,
        (Row::BackPointer(b), _) => b.number = number,
        (Row::Record(r), 0) => r.kind = small,
        (Row::Record(r), 1) => r.directory = small,
        (Row::Record(r), 2) => r.object_partition = small,
        (Row::Record(r), 3) => r.object = small,
        (Row::Record(r), _) => r.number = number,
        (Row::Close(count), _) => *count = u16::from(small),
    }
}

/// Changes the length of one name, a byte within it or one behind it.
fn bad_name(random: &mut Random, rows: &mut Vec<Row>) {
    let place = random.below(rows.len());
    if let Some((name, _)) = named(&mut rows[place]) {
        if random.once_in(3) {
            name.length = random.pick(&[0, 1, 7, 8, 9, 255, name.length ^ 1]);
        } else {
            name.bytes[random.below(8)] = random.pick(&[0, 1, 46, 47, 48]);
        }
    }
}

/// Repeats a row until there is one too many of it, or just not.
fn one_too_many(random: &mut Random, rows: &mut Vec<Row>) {
    let place = random.below(rows.len());
    let kind = discriminant(&rows[place]);
    let most = match rows[place] {
        Row::Entry(_) | Row::BackPointer(_) => 64,
        Row::Record(_) => 16,
        Row::Head(_) | Row::Close(_) => return,
    };
    let count = rows.iter().filter(|row| discriminant(*row) == kind).count();
    let wanted = most + random.below(2);
    let more = repeat_n(rows[place], wanted.saturating_sub(count));
    rows.splice(place..place, more);
    recount(random, rows);
}

/// Swaps two rows, neighbours or any.
fn swap(random: &mut Random, rows: &mut Vec<Row>) {
    let a = random.below(rows.len());
    let b = if random.once_in(2) {
        random.below(rows.len())
    } else {
        (a + 1) % rows.len()
    };
    rows.swap(a, b);
}

/// Closes with another count, or in the midst of the rows.
fn close_wrong(random: &mut Random, rows: &mut Vec<Row>) {
    let right = rows.len().saturating_sub(2) as u16;
    let count = match random.below(6) {
        0 => right.wrapping_add(1),
        1 => right.wrapping_sub(1),
        2 => right ^ 256,
        3 => right.swap_bytes(),
        4 => random.draw() as u16,
        _ => random.below(rows.len()) as u16,
    };
    if random.once_in(4) {
        let place = random.below(rows.len());
        let before = place.saturating_sub(1) as u16;
        rows.insert(place, Row::Close(random.pick(&[count, before])));
    } else if let Some(Row::Close(last)) = rows.last_mut() {
        *last = count;
    }
}

/// Repeats one row where it stands or elsewhere, or leaves it out.
fn repeat_or_drop(random: &mut Random, rows: &mut Vec<Row>) {
    let place = random.below(rows.len());
    let row = rows[place];
    match random.below(3) {
        0 => rows.insert(place, row),
        1 => rows.insert(random.below(rows.len() + 1), row),
        _ if rows.len() > 1 => drop(rows.remove(place)),
        _ => {}
    }
    recount(random, rows);
}

/// Half of the times, makes the closing count right again.
fn recount(random: &mut Random, rows: &mut [Row]) {
    let right = rows.len().saturating_sub(2) as u16;
    if let (true, Some(Row::Close(count))) = (random.once_in(2), rows.last_mut()) {
        *count = right;
    }
}

fn one_byte(random: &mut Random, bytes: &mut Vec<u8>) {
    if !bytes.is_empty() {
        let (place, any) = (random.below(bytes.len()), random.byte());
        let old = bytes[place];
        bytes[place] = random.pick(&[any, old.wrapping_add(1), old.wrapping_sub(1), 0]);
    }
}

fn several_bytes(random: &mut Random, bytes: &mut Vec<u8>) {
    for _ in 0..2 + random.below(4) {
        one_byte(random, bytes);
    }
}

/// Writes a mark over two bytes, mostly where one of the first marks stands.
fn mark(random: &mut Random, bytes: &mut Vec<u8>) {
    let known = random.pick(&[b"HD", b"EN", b"BP", b"LG", b"ED", b"XX", b"en", b"NE"]);
    let any = random.below(bytes.len() + 1);
    let place = random.pick(&[0, 8, 8, 26, 44, any]);
    if let Some(two) = bytes.get_mut(place..place + 2) {
        two.copy_from_slice(known);
    }
}

fn truncate(random: &mut Random, bytes: &mut Vec<u8>) {
    let any = random.below(bytes.len() + 1);
    let near = bytes.len().saturating_sub(1 + random.below(24));
    bytes.truncate(random.pick(&[any, near]));
}

fn extend(random: &mut Random, bytes: &mut Vec<u8>) {
    for _ in 0..=random.below(4) {
        bytes.push(random.byte());
    }
}

/// Puts random bytes in the place of all that stands behind some byte.
fn noise(random: &mut Random, bytes: &mut Vec<u8>) {
    let start = random.below(bytes.len() + 1);
    for byte in &mut bytes[start..] {
        *byte = random.byte();
    }
}
