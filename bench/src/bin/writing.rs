//! Measures the writing of a largest picture: the proved `write_picture`, which takes tables by value and so is run by the
//! program `rewrite`, beside a plain writer that has them by reference; in turns within one run, the best of several rounds
//! of each. What the program takes to start and to load the picture is measured alone and taken off.

use std::env;
use std::error::Error;
use std::fs::{self, File};
use std::hint::black_box;
use std::iter;
use std::path::{Path, PathBuf};
use std::process::{Command, Output, Stdio};
use std::time::{Duration, Instant};

use picture::making::{self, LARGEST};
use picture::random::Random;
use picture::tables::{picture, Name as Shown, Tables as Stable, LINK, UNLINK};
use second::order::in_order;
use second::tables::{
    BackPointer, Entry, Kind, Name, Object, Partition, Record, Stage, Tables, Transaction,
};

const SEED: u64 = 0x5eed_0003_2001_0129;
const ROUNDS: usize = 100;
const WRITES: u32 = 5_000;

const OUT_OF_RANGE: u32 = 1;
const OUT_OF_ORDER: u32 = 16;
const ROOM_TOO_SHORT: u32 = 22;

const HEAD: usize = 8;
const ENTRY: usize = 18;
const BACK_POINTER: usize = 18;
const RECORD: usize = 19;
const CLOSE: usize = 4;

/// The plain writer: how many bytes of the room are the picture of this partition, or the refusal.
fn write_picture(tables: &Tables, partition: u32, room: &mut [u8]) -> Result<usize, u32> {
    if !in_order(tables) {
        return Err(OUT_OF_ORDER);
    }
    if !tables.has(partition) {
        return Err(OUT_OF_RANGE);
    }
    let x = tables.partition(partition);
    let size = size_of(x);
    let room = room.get_mut(..size).ok_or(ROOM_TOO_SHORT)?;
    let (head, mut rest) = room.split_at_mut(HEAD);
    put_head(head, partition, tables.count, x.last);
    for entry in x.entries.items() {
        put_entry(taken(&mut rest, ENTRY), entry);
    }
    for back_pointer in x.backpointers.items() {
        put_back_pointer(taken(&mut rest, BACK_POINTER), back_pointer);
    }
    for record in x.records.items() {
        put_record(taken(&mut rest, RECORD), &record.transaction);
    }
    put_close(
        rest,
        x.entries.count + x.backpointers.count + x.records.count,
    );
    Ok(size)
}

fn size_of(x: &Partition) -> usize {
    let (entries, back_pointers) = (ENTRY * x.entries.count, BACK_POINTER * x.backpointers.count);
    HEAD + entries + back_pointers + RECORD * x.records.count + CLOSE
}

/// The next so many bytes of the room; what is left stands behind them.
fn taken<'a>(rest: &mut &'a mut [u8], size: usize) -> &'a mut [u8] {
    let (next, behind) = std::mem::take(rest).split_at_mut(size);
    *rest = behind;
    next
}

fn put_head(row: &mut [u8], partition: u32, count: u32, last: u32) {
    row[..4].copy_from_slice(&[b'H', b'D', partition as u8, count as u8]);
    row[4..].copy_from_slice(&last.to_be_bytes());
}

fn put_entry(row: &mut [u8], e: &Entry) {
    let (partition, object) = (e.object.partition as u8, e.object.number as u8);
    row[..5].copy_from_slice(&[b'E', b'N', e.directory as u8, partition, object]);
    put_named(&mut row[5..], &e.name, e.number);
}

fn put_back_pointer(row: &mut [u8], b: &BackPointer) {
    row[..5].copy_from_slice(&[
        b'B',
        b'P',
        b.object as u8,
        b.parent as u8,
        b.directory as u8,
    ]);
    put_named(&mut row[5..], &b.name, b.number);
}

fn put_record(row: &mut [u8], t: &Transaction) {
    let (partition, object) = (t.object.partition as u8, t.object.number as u8);
    row[..4].copy_from_slice(&[b'L', b'G', kind_number(t.kind), t.directory as u8]);
    row[4..6].copy_from_slice(&[partition, object]);
    put_named(&mut row[6..], &t.name, t.number);
}

fn put_close(row: &mut [u8], count: usize) {
    row[..2].copy_from_slice(b"ED");
    row[2..].copy_from_slice(&(count as u16).to_be_bytes());
}

fn put_named(fields: &mut [u8], name: &Name, number: u32) {
    fields[0] = name.length;
    fields[1..9].copy_from_slice(&name.bytes);
    fields[9..].copy_from_slice(&number.to_be_bytes());
}

fn kind_number(kind: Kind) -> u8 {
    match kind {
        Kind::Link => 1,
        Kind::Create => 2,
        Kind::Unlink => 3,
    }
}

/// The whole service of one partition, down, with these stable tables.
fn service(stable: &Stable) -> Tables {
    let mut tables = Tables::fresh(u32::from(stable.head.partitions));
    let x = tables.partition_mut(u32::from(stable.head.partition));
    x.up = false;
    x.last = stable.head.last;
    for e in &stable.entries {
        x.entries.push(Entry {
            directory: u32::from(e.directory),
            name: name(&e.name),
            object: object(e.object_partition, e.object),
            number: e.number,
        });
    }
    for b in &stable.back_pointers {
        x.backpointers.push(BackPointer {
            object: u32::from(b.object),
            parent: u32::from(b.parent),
            directory: u32::from(b.directory),
            name: name(&b.name),
            number: b.number,
        });
    }
    for r in &stable.records {
        let transaction = Transaction {
            kind: kind(r.kind),
            directory: u32::from(r.directory),
            name: name(&r.name),
            object: object(r.object_partition, r.object),
            number: r.number,
        };
        let stage = Stage::Ready;
        x.records.push(Record { transaction, stage });
    }
    tables
}

fn name(shown: &Shown) -> Name {
    Name::new(&shown.bytes[..usize::from(shown.length)])
}

fn object(partition: u8, number: u8) -> Object {
    Object {
        partition: u32::from(partition),
        number: u32::from(number),
    }
}

fn kind(number: u8) -> Kind {
    match number {
        LINK => Kind::Link,
        UNLINK => Kind::Unlink,
        _ => Kind::Create,
    }
}

/// The first largest tables from the seed that are in order in fresh ones: all back-pointers are of numbers that the
/// partition itself gave.
fn largest() -> Option<(Stable, Tables)> {
    let mut random = Random::new(SEED);
    let made = iter::repeat_with(|| making::tables(&mut random, &LARGEST)).take(1_000);
    let mut services = made.map(|stable| (service(&stable), stable));
    let (tables, stable) = services.find(|(tables, _)| in_order(tables))?;
    Some((stable, tables))
}

/// The program's answer to a picture that it is to write so many times.
fn rewritten(program: &Path, input: &Path, times: u32) -> Result<Output, Box<dyn Error>> {
    let output = Command::new(program)
        .arg(times.to_string())
        .stdin(File::open(input)?)
        .stderr(Stdio::inherit())
        .output()?;
    if output.status.success() {
        Ok(output)
    } else {
        Err(format!("{} ended with {}", program.display(), output.status).into())
    }
}

fn timed(program: &Path, input: &Path, times: u32) -> Result<Duration, Box<dyn Error>> {
    let start = Instant::now();
    rewritten(program, input, times)?;
    Ok(start.elapsed())
}

fn round(tables: &Tables, room: &mut [u8], size: usize) -> Duration {
    let start = Instant::now();
    for _ in 0..WRITES {
        assert_eq!(
            write_picture(black_box(tables), 0, black_box(room)),
            Ok(size)
        );
    }
    start.elapsed()
}

/// The time of a write, proved and plain.
fn measured(
    program: &Path,
    input: &Path,
    tables: &Tables,
    size: usize,
) -> Result<[f64; 2], Box<dyn Error>> {
    let mut room = vec![0; size];
    let (mut none, mut all, mut plain) = (Duration::MAX, Duration::MAX, Duration::MAX);
    for _ in 0..ROUNDS {
        none = none.min(timed(program, input, 0)?);
        all = all.min(timed(program, input, WRITES)?);
        plain = plain.min(round(tables, &mut room, size));
    }
    let each = |time: Duration| time.as_secs_f64() * 1e6 / f64::from(WRITES);
    Ok([each(all.saturating_sub(none)), each(plain)])
}

/// Both write the very bytes of the picture.
fn compared(
    program: &Path,
    input: &Path,
    tables: &Tables,
    bytes: &[u8],
) -> Result<(), Box<dyn Error>> {
    let mut room = vec![0; bytes.len()];
    assert_eq!(write_picture(tables, 0, &mut room), Ok(bytes.len()));
    assert!(room == bytes, "the plain writer writes other bytes");
    assert!(
        rewritten(program, input, 1)?.stdout == bytes,
        "the proved writer writes other bytes"
    );
    Ok(())
}

fn program() -> Result<PathBuf, Box<dyn Error>> {
    let root = Path::new(env!("CARGO_MANIFEST_DIR"))
        .parent()
        .ok_or("bench stands in no folder")?;
    Ok(root.join("crates/rewrite/out/rewrite"))
}

fn main() -> Result<(), Box<dyn Error>> {
    let (stable, tables) = largest().ok_or("no tables of the seed are in order alone")?;
    let bytes = picture(&stable.rows());
    let program = program()?;
    let input = env::temp_dir().join(format!("writing-{}", std::process::id()));
    fs::write(&input, &bytes)?;
    compared(&program, &input, &tables, &bytes)?;
    let [proved, plain] = measured(&program, &input, &tables, bytes.len())?;
    fs::remove_file(&input)?;
    println!(
        "a largest picture of {} bytes, best of {ROUNDS} rounds of {WRITES}",
        bytes.len()
    );
    println!("write_picture {proved:.2} us");
    println!("plain Rust    {plain:.2} us");
    println!("ratio         {:.2}", proved / plain);
    Ok(())
}
