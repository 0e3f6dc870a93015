//! A million pictures from a fixed seed, whole and damaged: the proved check and the independent
//! reading agree on each, and each number is reached often.

use std::collections::BTreeMap;

use picture::agreed;
use picture::damage::{BYTE_DAMAGES, ROW_DAMAGES};
use picture::making::{tables, Size, LARGEST};
use picture::random::Random;
use picture::reading::{BYTES_AFTER, COUNT_WRONG, ENDS_EARLY, OUT_OF_ORDER};
use picture::tables::{picture, Row};

const SEED: u64 = 0x5eed_0001_2001_0129;
const PICTURES: usize = 1_000_000;
const LEAST: usize = 10_000;

fn rows(random: &mut Random) -> Vec<Row> {
    let size = match random.below(64) {
        0 => LARGEST,
        1 | 2 => Size::full(random),
        3..=6 => Size::overfull(random),
        _ => Size::any(random),
    };
    tables(random, &size).rows()
}

/// A picture with several damages, one or none, of its rows before those of its bytes.
fn damaged(random: &mut Random) -> Vec<u8> {
    let mut rows = rows(random);
    let to_rows = random.pick(&[0, 0, 1, 1, 1, 2, 3]);
    let to_bytes = random.pick(&[0, 0, 0, 0, 1, 2]);
    for _ in 0..to_rows {
        random.pick(&ROW_DAMAGES)(random, &mut rows);
    }
    let mut bytes = picture(&rows);
    for _ in 0..to_bytes {
        random.pick(&BYTE_DAMAGES)(random, &mut bytes);
    }
    bytes
}

#[test]
fn a_million_pictures() {
    println!("seed {SEED:#x}");
    let mut random = Random::new(SEED);
    let mut reached: BTreeMap<u32, usize> = BTreeMap::new();
    for _ in 0..PICTURES {
        let answer = agreed(&damaged(&mut random));
        *reached.entry(answer).or_default() += 1;
    }
    println!("{PICTURES} pictures, each number: {reached:?}");
    let numbers: Vec<u32> = reached.keys().copied().collect();
    assert_eq!(numbers, [0, 16, 17, 18, 19, 20, 21]);
    assert!(reached.values().all(|times| *times >= LEAST));
}

/// What is made in order is accepted, and the number of a single known damage is known.
#[test]
fn known_by_their_making() {
    let mut random = Random::new(SEED);
    for _ in 0..10_000 {
        let size = Size::overfull(&mut random);
        let overfull = picture(&tables(&mut random, &size).rows());
        assert_eq!(agreed(&overfull), OUT_OF_ORDER);
        let sizes = [Size::any, Size::any, Size::any, Size::full];
        let size = random.pick(&sizes)(&mut random);
        let mut whole = picture(&tables(&mut random, &size).rows());
        assert_eq!(agreed(&whole), 0);
        assert_eq!(agreed(&whole[..random.below(whole.len())]), ENDS_EARLY);
        whole.push(random.byte());
        assert_eq!(agreed(&whole), BYTES_AFTER);
        let count = whole.len() - 2 - random.below(2);
        whole[count] ^= 1 + random.below(255) as u8;
        assert_eq!(agreed(&whole), COUNT_WRONG);
    }
}
