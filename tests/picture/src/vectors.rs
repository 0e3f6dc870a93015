//! The vectors of tests/vectors/picture_check.txt, which says how they are written; the C program
//! reads the same file.

const TEXT: &str = include_str!("../../vectors/picture_check.txt");

pub struct Vector {
    pub number: u32,
    pub title: &'static str,
    pub bytes: Vec<u8>,
}

pub fn vectors() -> Vec<Vector> {
    let mut vectors: Vec<Vector> = Vec::new();
    for line in TEXT
        .lines()
        .filter(|line| !line.is_empty() && !line.starts_with('#'))
    {
        if let Some(row) = line.strip_prefix(' ') {
            let vector = vectors.last_mut().expect("a title before the first bytes");
            append(&mut vector.bytes, row.trim_start());
        } else {
            let (number, title) = line.split_once(' ').expect("a number and a title");
            let number = number.parse().expect("a decimal number");
            vectors.push(Vector {
                number,
                title,
                bytes: Vec::new(),
            });
        }
    }
    vectors
}

/// Appends the bytes of a line, several times over if it begins with a star and a count.
fn append(bytes: &mut Vec<u8>, line: &str) {
    let (times, row) = match line.strip_prefix('*') {
        Some(starred) => starred.split_once(' ').expect("bytes after the count"),
        None => ("1", line),
    };
    for turn in 0..times.parse().expect("a decimal count") {
        for word in row.split_whitespace() {
            append_word(bytes, word, turn);
        }
    }
}

/// A word in quotes stands for itself; else it is pairs of hexadecimal digits, and a plus before
/// them adds the turn, from 0, to each byte.
fn append_word(bytes: &mut Vec<u8>, word: &str, turn: u8) {
    if let Some(quoted) = word.strip_prefix('\'') {
        bytes.extend(quoted.strip_suffix('\'').expect("a closing quote").bytes());
        return;
    }
    let (digits, more) = match word.strip_prefix('+') {
        Some(digits) => (digits, turn),
        None => (word, 0),
    };
    for place in (0..digits.len()).step_by(2) {
        let byte = u8::from_str_radix(&digits[place..place + 2], 16).expect("two digits");
        bytes.push(byte + more);
    }
}
