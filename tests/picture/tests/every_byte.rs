//! Exactness: every change of one byte and every length, of the largest picture and of a small one.

use picture::making::{tables, Size, LARGEST};
use picture::random::Random;
use picture::reading::ENDS_EARLY;
use picture::tables::picture;
use picture::{agreed, picture_check};

const SEED: u64 = 0x5eed_0002_2001_0129;

const SMALL: Size = Size {
    entries: 2,
    back_pointers: 2,
    promised: 1,
    other_records: 2,
};

fn whole(size: &Size) -> Vec<u8> {
    let whole = picture(&tables(&mut Random::new(SEED), size).rows());
    assert_eq!(agreed(&whole), 0);
    whole
}

fn every_length(whole: &[u8]) {
    for length in 0..whole.len() {
        assert_eq!(agreed(&whole[..length]), ENDS_EARLY, "length {length}");
    }
}

fn every_change(mut bytes: Vec<u8>) {
    for place in 0..bytes.len() {
        let right = bytes[place];
        for change in 1..=255 {
            bytes[place] = right ^ change;
            agreed(&bytes);
        }
        bytes[place] = right;
    }
    assert_eq!(picture_check(&bytes), 0);
}

#[test]
fn the_largest_picture() {
    let largest = whole(&LARGEST);
    assert_eq!(largest.len(), 2_620);
    every_length(&largest);
    every_change(largest);
}

#[test]
fn a_small_picture() {
    let small = whole(&SMALL);
    every_length(&small);
    every_change(small);
}
