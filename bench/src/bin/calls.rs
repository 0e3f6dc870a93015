//! Measures the calls: the proved program `rehearse` beside the second one, on the same schedules, in turns within one
//! run, the best of several rounds of each. What a schedule takes to fill the tables is measured alone and taken off.

use std::env;
use std::error::Error;
use std::fs::{self, File};
use std::path::{Path, PathBuf};
use std::process::{Command, Stdio};
use std::time::{Duration, Instant};

const ROUNDS: usize = 5;
const PARTITIONS: u32 = 4;
const OBJECTS: u32 = 64;
const RECORDS: u32 = 16;
const SETTLE: &str = "Z 4294967295\n";

/// A schedule that fills the tables, the lines to measure, and how many they are.
struct Work {
    what: &'static str,
    fill: String,
    lines: String,
    count: u32,
}

fn create(partition: u32, place: u32) -> String {
    let object = (partition + 1) % PARTITIONS;
    format!("C {partition} {} n{place} {object} {place}\n", place % 4)
}

/// Four partitions, in each so many names; their objects stand on the next one.
fn named(names: u32) -> String {
    let mut text = String::from("P 4\n");
    for partition in 0..PARTITIONS {
        for place in 0..names {
            text += &create(partition, place);
            if place % RECORDS == RECORDS - 1 {
                text += SETTLE;
            }
        }
    }
    text + SETTLE
}

/// As full as the rules allow: 48 names, 64 back-pointers, and 16 records that are sent and answered, in each partition;
/// `spare` records of partition 0 are left out.
fn full(spare: u32) -> String {
    let named_only = OBJECTS - RECORDS;
    let mut text = named(named_only);
    for partition in 0..PARTITIONS {
        let last = if partition == 0 {
            OBJECTS - spare
        } else {
            OBJECTS
        };
        for place in named_only..last {
            text += &create(partition, place);
            text += &format!("A {partition} {}\n", place + 1);
            text += &format!("D {partition} {}\n", (partition + 1) % PARTITIONS);
        }
    }
    text
}

/// A name created, entered, taken out and forgotten, step by step, on partition 0 with its object on `holder`.
fn round_trip(number: u32, holder: u32) -> String {
    let (ask, advance) = (format!("0 3 trip {holder} 63"), format!("A 0 {number}\n"));
    let delivered = format!("D 0 {holder}\nD {holder} 0\n");
    format!("C {ask}\n{advance}{delivered}{advance}{advance}U 0 3 trip\n{advance}{advance}{delivered}{advance}")
}

fn trips(first: u32, holder: u32, times: u32) -> String {
    (0..times).map(|k| round_trip(first + k, holder)).collect()
}

fn repeated(what: &'static str, fill: &str, lines: &str, times: u32) -> Work {
    let count = times * lines.lines().count() as u32;
    Work {
        what,
        fill: fill.into(),
        lines: lines.repeat(times as usize),
        count,
    }
}

fn works(small_times: u32, full_times: u32) -> Vec<Work> {
    let (fresh, brim) = (String::from("P 4\n"), full(0));
    let lines_of_trip = round_trip(1, 1).lines().count() as u32;
    let mut works = Vec::new();
    for (fill, times) in [(&fresh, small_times), (&brim, full_times)] {
        works.push(repeated(
            "refused advance (the order test)",
            fill,
            "A 0 4294967295\n",
            times,
        ));
        works.push(repeated("advance of no partition", fill, "A 9 1\n", times));
        works.push(repeated("refused deliver", fill, "D 0 2\n", times));
        works.push(repeated("cut", fill, "B 0 2\n", times));
        works.push(repeated("settle 0", fill, "Z 0\n", times));
        works.push(repeated("crash and recover", fill, "K 0\nR 0\n", times / 2));
    }
    let free = full(1);
    for (fill, first, holder, times) in
        [(&fresh, 1, 1, small_times), (&free, OBJECTS, 1, full_times)]
    {
        let trips_made = times / lines_of_trip;
        let lines = trips(first, holder, trips_made);
        works.push(Work {
            what: "create to unlink, all accepted",
            fill: fill.clone(),
            lines,
            count: trips_made * lines_of_trip,
        });
    }
    works
}

fn timed(program: &Path, input: &Path) -> Result<Duration, Box<dyn Error>> {
    let start = Instant::now();
    let status = Command::new(program)
        .stdin(File::open(input)?)
        .stdout(Stdio::null())
        .status()?;
    let taken = start.elapsed();
    if status.success() {
        Ok(taken)
    } else {
        Err(format!("{} ended with {status}", program.display()).into())
    }
}

/// The time of the lines alone, for both programs.
fn measured(
    programs: &[PathBuf; 2],
    work: &Work,
    folder: &Path,
) -> Result<[Duration; 2], Box<dyn Error>> {
    let (fill, whole) = (folder.join("fill"), folder.join("whole"));
    fs::write(&fill, &work.fill)?;
    fs::write(&whole, format!("{}{}", work.fill, work.lines))?;
    let mut best = [[Duration::MAX; 2]; 2];
    for _ in 0..ROUNDS {
        for (program, best) in programs.iter().zip(&mut best) {
            best[0] = best[0].min(timed(program, &fill)?);
            best[1] = best[1].min(timed(program, &whole)?);
        }
    }
    Ok(best.map(|[fill, whole]| whole.saturating_sub(fill)))
}

fn main() -> Result<(), Box<dyn Error>> {
    let root = Path::new(env!("CARGO_MANIFEST_DIR"))
        .parent()
        .ok_or("bench stands in no folder")?;
    let second = root.join("target/cargo/release/second");
    let programs = [root.join("crates/rehearse/out/rehearse"), second];
    let folder = env::temp_dir().join(format!("calls-{}", std::process::id()));
    fs::create_dir_all(&folder)?;
    println!(
        "{:<34}{:>9}{:>12}{:>12}{:>8}",
        "lines", "tables", "rehearse", "second", "ratio"
    );
    for work in works(200_000, 20_000) {
        let [proved, plain] = measured(&programs, &work, &folder)?;
        let tables = if work.fill.len() > 10 {
            "full"
        } else {
            "empty"
        };
        let each =
            |time: Duration| format!("{:.2} us", time.as_secs_f64() * 1e6 / f64::from(work.count));
        let ratio = proved.as_secs_f64() / plain.as_secs_f64();
        println!(
            "{:<34}{:>9}{:>12}{:>12}{:>8.2}",
            work.what,
            tables,
            each(proved),
            each(plain),
            ratio
        );
    }
    fs::remove_dir_all(&folder)?;
    Ok(())
}
