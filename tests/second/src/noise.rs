//! Lines for schedules that are meant to be refused: lines that are not understood, bad
//! names, and numbers at the edge of their range.

use crate::line::LINE;
use crate::random::Random;

/// Numbers that are no decimals up to 4,294,967,295, or only just.
const NUMBERS: [&[u8]; 14] = [
    b"4294967295",
    b"4294967296",
    b"4294967297",
    b"42949672950",
    b"9999999999",
    b"18446744073709551616",
    b"18446744073709551617",
    b"00",
    b"01",
    b"+1",
    b"-1",
    b"1.",
    b"0x1",
    b"1\0",
];

/// What may be put in the place of a space.
const GAPS: [&[u8]; 6] = [b"  ", b"\t", b"", b",", b"\0", b"\xa0"];

/// What may follow a line, or come before it.
const EDGES: [&[u8]; 10] = [
    b" ",
    b"\r",
    b"\t",
    b"\0",
    b" 0",
    b" 1 1",
    b"\xff",
    b"\xef\xbb\xbf",
    b"#",
    b"\x0b",
];

/// A letter that is no command, or one that is, or one that wants other fields.
const LETTERS: &[u8] = b"plcuadbkrzsqEFGHIJMNOTVWXY0123?*\x00\x7f\x80\xffPLCUADBKRZSQ";

/// The line with something wrong; now and then it is still a good one.
pub fn spoil(random: &mut Random, line: &[u8]) -> Vec<u8> {
    match random.below(12) {
        0 => Vec::new(),
        1 => [line, random.pick(&EDGES)].concat(),
        2 => [random.pick(&EDGES), line].concat(),
        3 => with_gap(random, line),
        4 | 5 => with_number(random, line),
        6 => with_fewer_fields(random, line),
        7 => [&[random.pick(LETTERS)], line.get(1..).unwrap_or(b"")].concat(),
        8 => padded(random, line),
        9 => (0..random.below(LINE as u32 + 6))
            .map(|_| random.byte())
            .collect(),
        10 => with_byte(random, line),
        _ => format!("P {}", random.below(7)).into_bytes(),
    }
}

fn spaces(line: &[u8]) -> Vec<usize> {
    (0..line.len())
        .filter(|place| line[*place] == b' ')
        .collect()
}

fn with_gap(random: &mut Random, line: &[u8]) -> Vec<u8> {
    let spaces = spaces(line);
    if spaces.is_empty() {
        return [line, b" "].concat();
    }
    let space = random.pick(&spaces);
    [&line[..space], random.pick(&GAPS), &line[space + 1..]].concat()
}

/// One field replaced by a number that is none, or led by a zero.
fn with_number(random: &mut Random, line: &[u8]) -> Vec<u8> {
    let mut fields: Vec<Vec<u8>> = line.split(|b| *b == b' ').map(<[u8]>::to_vec).collect();
    if fields.len() > 1 {
        let place = 1 + random.below(fields.len() as u32 - 1) as usize;
        if random.percent(30) {
            fields[place].insert(0, b'0');
        } else {
            fields[place] = random.pick(&NUMBERS).to_vec();
        }
    }
    fields.join(&b' ')
}

fn with_fewer_fields(random: &mut Random, line: &[u8]) -> Vec<u8> {
    let spaces = spaces(line);
    if spaces.is_empty() {
        return Vec::new();
    }
    let space = random.pick(&spaces);
    line[..space + random.below(2) as usize].to_vec()
}

/// The line brought to 64 or 65 bytes, or to many more, by one more field.
fn padded(random: &mut Random, line: &[u8]) -> Vec<u8> {
    let length = random.pick(&[LINE, LINE + 1, LINE + 2, 128, 1_000]);
    let mut padded = [line, b" "].concat();
    let byte = random.pick(b"01 x\xfe");
    padded.resize(length.max(line.len()), byte);
    padded
}

/// One byte replaced, inserted or taken out; it may be an LF.
fn with_byte(random: &mut Random, line: &[u8]) -> Vec<u8> {
    let mut bytes = line.to_vec();
    if bytes.is_empty() {
        return vec![random.byte()];
    }
    let place = random.below(bytes.len() as u32) as usize;
    match random.below(4) {
        0 => bytes[place] = random.byte(),
        1 => bytes.insert(place, random.byte()),
        2 => bytes.insert(place, b'\n'),
        _ => {
            bytes.remove(place);
        }
    }
    bytes
}

/// Bad names: of more than eight bytes, some to make a line of 64 or 65, or with a byte 0 or
/// 47; now and then a good one.
pub fn bad_name(random: &mut Random) -> Vec<u8> {
    let length = random.pick(&[1, 2, 7, 8, 9, 9, 10, 40, 54, 55, 58, 59]);
    let mut name: Vec<u8> = (0..length)
        .map(|_| random.pick(b"abcxyz019.\x80\xff"))
        .collect();
    if length <= 8 && random.percent(85) {
        let place = random.below(length as u32) as usize;
        name[place] = random.pick(b"/\0");
    }
    name
}

/// A number at or past the edge of a range that ends below this one.
pub fn past(random: &mut Random, end: u32) -> u32 {
    random.pick(&[
        end,
        end,
        end,
        end.saturating_sub(1),
        end + 1,
        255,
        256,
        u32::MAX,
    ])
}
