//! Measures the check of a largest picture: the proved `picture_check` beside the plain Rust
//! `check` of tests/picture, in turns within one run, the best of several rounds of each.

use std::hint::black_box;
use std::time::{Duration, Instant};

use picture::making::{tables, LARGEST};
use picture::random::Random;
use picture::reading::check;
use picture::{agreed, picture_check};

const SEED: u64 = 0x5eed_0003_2001_0129;
const ROUNDS: usize = 5_000;
const CHECKS: u32 = 50;

fn round(check: fn(&[u8]) -> u32, bytes: &[u8]) -> Duration {
    let start = Instant::now();
    for _ in 0..CHECKS {
        assert_eq!(check(black_box(bytes)), 0);
    }
    start.elapsed() / CHECKS
}

fn main() {
    let bytes = picture::tables::picture(&tables(&mut Random::new(SEED), &LARGEST).rows());
    assert_eq!(agreed(&bytes), 0);
    let (mut proved, mut plain) = (Duration::MAX, Duration::MAX);
    for _ in 0..ROUNDS {
        proved = proved.min(round(picture_check, &bytes));
        plain = plain.min(round(check, &bytes));
    }
    let ratio = proved.as_secs_f64() / plain.as_secs_f64();
    println!(
        "a largest picture of {} bytes, best of {ROUNDS} rounds of {CHECKS}",
        bytes.len()
    );
    println!("picture_check {proved:?}");
    println!("plain Rust    {plain:?}");
    println!("ratio         {ratio:.2}");
}
