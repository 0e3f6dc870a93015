//! Random schedules: demand 3 and the order after every event, refusals that change nothing,
//! and the counts of refusals and replies, of which none may be missing.

use std::collections::BTreeMap;
use std::io::{self, Read};

use second::answer::Refusal;
use second::demand;
use second::line::{Rehearsal, Response};
use second::random::Random;
use second::schedule::{schedule, schedule_from};
use second::stream::{answers, rehearse};
use second::tables::{Name, Object, Tables, LAST_NUMBER, QUEUE};

const SCHEDULES: u64 = 6_000;
const HIGH_SCHEDULES: u64 = 1_500;

#[derive(Default)]
struct Counts {
    schedules: u64,
    lines: u64,
    refusals: BTreeMap<u32, u64>,
    replies: BTreeMap<u32, u64>,
    longest_queue: usize,
}

impl Counts {
    fn count(&mut self, response: &Response) {
        self.lines += 1;
        let (refusal, reply) = match response {
            Response::Event(Ok(done)) => (0, Some(done.reply.number())),
            Response::Event(Err(refusal)) => (refusal.number(), None),
            Response::Totals(_) | Response::Lengths(..) => (0, None),
        };
        *self.refusals.entry(refusal).or_default() += 1;
        if let Some(reply) = reply {
            *self.replies.entry(reply).or_default() += 1;
        }
    }

    fn print(&self) {
        println!("{} schedules, {} lines", self.schedules, self.lines);
        println!("refusals {:?}", self.refusals);
        println!("replies {:?}", self.replies);
        println!("longest queue {}", self.longest_queue);
    }
}

fn lines(text: &[u8]) -> impl Iterator<Item = &[u8]> {
    let ended = text.split_inclusive(|byte| *byte == b'\n');
    ended.map(|line| line.strip_suffix(b"\n").unwrap_or(line))
}

/// Rehearses a schedule with all checks after each line; gives the output.
fn run(text: &[u8], last: u32, counts: &mut Counts) -> Vec<u8> {
    let mut rehearsal = Rehearsal::from_last(last);
    let mut output = Vec::new();
    counts.schedules += 1;
    for (number, line) in (1..).zip(lines(text)) {
        let before = rehearsal.tables.clone();
        let response = rehearsal.respond(line);
        counts.count(&response);
        if !matches!(response, Response::Event(Ok(_))) {
            assert!(
                rehearsal.tables == before,
                "line {number} is refused or asks only"
            );
        }
        if rehearsal.opened {
            demand::check(&rehearsal.tables, number).expect("demand 3");
            let lengths = rehearsal.tables.queue_lengths();
            let longest = lengths.iter().flatten().max();
            counts.longest_queue = counts.longest_queue.max(*longest.expect("16 queues"));
        }
        response.write(number, &mut output).expect("room in memory");
    }
    output
}

#[test]
fn schedules_keep_demand_3_and_meet_every_refusal_and_reply() {
    let mut counts = Counts::default();
    for seed in 1..=SCHEDULES {
        let text = schedule(seed);
        let output = run(&text, 0, &mut counts);
        assert_eq!(output, answers(&text), "seed {seed}");
        assert!(lines(&text).count() <= 120, "seed {seed}");
    }
    println!("from number 1, seeds 1 to {SCHEDULES}:");
    counts.print();
    // 11 is out of reach for a schedule that starts with number 1.
    let refusals: Vec<u32> = (0..=10).chain(12..=15).chain([23]).collect();
    assert!(counts.refusals.keys().eq(&refusals));
    assert!(counts.replies.keys().copied().eq(0..=6));
    assert_eq!(counts.longest_queue, QUEUE);
}

#[test]
fn schedules_near_the_last_number_meet_refusal_11() {
    let mut counts = Counts::default();
    for seed in 1..=HIGH_SCHEDULES {
        let last = LAST_NUMBER - (seed % 20) as u32;
        run(&schedule_from(seed, last), last, &mut counts);
    }
    println!("near the last number, seeds 1 to {HIGH_SCHEDULES}:");
    counts.print();
    assert!(counts.refusals.contains_key(&11) && !counts.refusals.contains_key(&16));
}

/// Hands out a few bytes at a time.
struct Drops<'a>(&'a [u8], Random);

impl Read for Drops<'_> {
    fn read(&mut self, block: &mut [u8]) -> io::Result<usize> {
        let wanted = 1 + self.1.below(40) as usize;
        let length = wanted.min(block.len()).min(self.0.len());
        block[..length].copy_from_slice(&self.0[..length]);
        self.0 = &self.0[length..];
        Ok(length)
    }
}

#[test]
fn the_cut_into_blocks_does_not_matter() {
    for seed in 1..=500 {
        let text = schedule(seed);
        let mut output = Vec::new();
        let mut drops = Drops(&text, Random::new(seed));
        rehearse(&mut drops, &mut output, false).expect("memory neither ends nor closes");
        assert_eq!(output, answers(&text), "seed {seed}");
    }
}

#[test]
fn a_seed_fixes_its_schedule() {
    assert_eq!(schedule(7), schedule(7));
    assert_ne!(schedule(7), schedule(8));
}

fn settled() -> Tables {
    let mut rehearsal = Rehearsal::default();
    for line in ["P 2", "C 0 0 a 1 5", "C 0 0 b 1 6", "Z 100", "C 1 0 c 0 7"] {
        let response = rehearsal.respond(line.as_bytes());
        assert_ne!(response, Response::Event(Err(Refusal::NotUnderstood)));
    }
    rehearsal.tables
}

#[test]
fn the_checks_see_a_broken_demand() {
    let tables = settled();
    assert_eq!(demand::check(&tables, 1), Ok(()));
    let changes: [fn(&mut Tables); 6] = [
        |t| _ = t.partitions[1].backpointers.remove(0),
        |t| _ = t.partitions[0].entries.remove(0),
        |t| t.partitions[1].backpointers.slots[1].number = 1,
        |t| t.partitions[0].entries.slots[0].object = Object::default(),
        |t| t.partitions[0].entries.slots[0].name = Name::new(b"z"),
        |t| t.partitions[1].records.slots[0].transaction.number = 0,
    ];
    for (what, change) in changes.iter().enumerate() {
        let mut broken = tables.clone();
        change(&mut broken);
        assert!(demand::check(&broken, 1).is_err(), "change {what}");
    }
}

#[test]
fn the_check_at_rest_and_of_the_second_sentence() {
    let mut tables = settled();
    assert_eq!(demand::second_sentence(&tables, 1), Ok(()));
    tables.partitions[0].entries.remove(0);
    assert_eq!(
        demand::at_rest(&tables),
        Ok(()),
        "not at rest, so nothing is claimed"
    );
    assert!(demand::second_sentence(&tables, 1).is_err());
    tables.partitions[1].records.remove(0);
    assert!(demand::at_rest(&tables).is_err());
}
