//! `schedules SEED` writes the schedule of that seed. `schedules SEED COUNT PROGRAM` runs the
//! program on COUNT schedules from that seed on and compares its output with this package's,
//! which asserts demand 3 after every event as it goes.
//!
//! The gate runs seeds 1 to 20,000. A longer run, of a million that the gate does not see, takes
//! an hour or two and is one command from the root of the repository:
//!
//! ```sh
//! cargo run --release --offline --manifest-path tests/second/Cargo.toml --bin schedules -- 1000000 1000000 crates/rehearse/out/rehearse
//! ```

use std::env;
use std::ffi::{OsStr, OsString};
use std::io::{self, Write};
use std::process::{Command, ExitCode, Output, Stdio};
use std::thread;

use second::schedule::schedule;
use second::stream::checked_answers;

/// How many differences are shown in full.
const SHOWN: usize = 10;

fn main() -> ExitCode {
    let arguments: Vec<OsString> = env::args_os().skip(1).collect();
    let number = |place: usize| arguments.get(place)?.to_str()?.parse::<u64>().ok();
    let result = match (arguments.len(), number(0), number(1)) {
        (1, Some(seed), _) => io::stdout().write_all(&schedule(seed)).map(|()| true),
        (3, Some(seed), Some(count)) => compare(seed, count, &arguments[2]),
        _ => {
            eprintln!("usage: schedules SEED | schedules SEED COUNT PROGRAM");
            return ExitCode::from(2);
        }
    };
    match result {
        Ok(true) => ExitCode::SUCCESS,
        Ok(false) => ExitCode::FAILURE,
        Err(error) => {
            eprintln!("{error}");
            ExitCode::FAILURE
        }
    }
}

/// True if the program answers every schedule as this package does.
fn compare(first: u64, count: u64, program: &OsStr) -> io::Result<bool> {
    let workers = thread::available_parallelism().map_or(1, |number| number.get() as u64);
    let parts: io::Result<Vec<Found>> = thread::scope(|scope| {
        let started: Vec<_> = (0..workers)
            .map(|worker| {
                let places = (worker..count).step_by(workers as usize);
                scope.spawn(move || compare_some(first, places, program))
            })
            .collect();
        let ended = started.into_iter().map(|worker| worker.join());
        ended.map(|part| part.expect("no worker panics")).collect()
    });
    let parts = parts?;
    let lines: usize = parts.iter().map(|part| part.lines).sum();
    let mut differences: Vec<_> = parts
        .into_iter()
        .flat_map(|part| part.differences)
        .collect();
    differences.sort();
    for (_, text) in differences.iter().take(SHOWN) {
        println!("{text}");
    }
    let last = first.wrapping_add(count).wrapping_sub(1);
    let differ = differences.len();
    println!("seeds {first} to {last}: {count} schedules, {lines} lines, {differ} differ");
    Ok(differ == 0)
}

/// What a worker found: how many lines it compared, and in which places what differs.
#[derive(Default)]
struct Found {
    lines: usize,
    differences: Vec<(u64, String)>,
}

fn compare_some(
    first: u64,
    places: impl Iterator<Item = u64>,
    program: &OsStr,
) -> io::Result<Found> {
    let mut found = Found::default();
    for place in places {
        let seed = first.wrapping_add(place);
        let text = schedule(seed);
        let wanted = match checked_answers(&text) {
            Ok(wanted) => wanted,
            Err(what) => {
                let what = format!("seed {seed}: demand 3 is broken: {what}");
                found.differences.push((place, what));
                continue;
            }
        };
        found.lines += wanted.iter().filter(|byte| **byte == b'\n').count();
        let Output { status, stdout, .. } = run(program, &text)?;
        if stdout != wanted || !status.success() {
            let what = format!(
                "seed {seed}: {status}{}",
                first_difference(&wanted, &stdout)
            );
            found.differences.push((place, what));
        }
    }
    Ok(found)
}

fn run(program: &OsStr, text: &[u8]) -> io::Result<Output> {
    let mut child = Command::new(program)
        .stdin(Stdio::piped())
        .stdout(Stdio::piped())
        .spawn()?;
    let mut input = child.stdin.take().expect("the input is piped");
    thread::scope(|scope| {
        // A program that ends early is seen by its output.
        scope.spawn(move || input.write_all(text).unwrap_or(()));
        child.wait_with_output()
    })
}

/// The first line in which the two outputs differ.
fn first_difference(wanted: &[u8], given: &[u8]) -> String {
    let mut wanted = wanted.split_inclusive(|byte| *byte == b'\n');
    let mut given = given.split_inclusive(|byte| *byte == b'\n');
    loop {
        let (one, other) = (wanted.next(), given.next());
        if one.is_none() && other.is_none() {
            return String::new();
        }
        if one != other {
            let text =
                |line: Option<&[u8]>| String::from_utf8_lossy(line.unwrap_or(b"")).into_owned();
            return format!("\n  wanted {:?}, given {:?}", text(one), text(other));
        }
    }
}
