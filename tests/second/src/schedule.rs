//! Random schedules for the rehearsal: one seed gives one schedule. The generator rehearses
//! its own lines as it goes, so that it can name open records and filled queues.

use crate::line::Rehearsal;
use crate::noise::{bad_name, past, spoil};
use crate::random::Random;
use crate::tables::{Name, Record, Stage, DIRECTORIES, OBJECTS};

/// Names to choose from: short and long, and with bytes that other readers might mistake.
const NAMES: [&[u8]; 14] = [
    b"a",
    b"b",
    b"map",
    b"12345678",
    b"0",
    b"00",
    b"\xff",
    b"\x80\xfe\x01",
    b"..",
    b"t\tb",
    b"cr\r",
    b"S",
    b"4294967",
    b"\xc3\xa9tat",
];

#[derive(Clone, Copy)]
enum Act {
    Add,
    Unlink,
    Advance,
    Deliver,
    Cut,
    Crash,
    Recover,
    Settle,
    Totals,
    Lengths,
    BadLine,
    BadName,
    OutOfRange,
}

const ACTS: [Act; 13] = [
    Act::Add,
    Act::Unlink,
    Act::Advance,
    Act::Deliver,
    Act::Cut,
    Act::Crash,
    Act::Recover,
    Act::Settle,
    Act::Totals,
    Act::Lengths,
    Act::BadLine,
    Act::BadName,
    Act::OutOfRange,
];

/// How often each act comes, in the order above: steady, faulty, settling, noisy.
const MOODS: [[u32; 13]; 4] = [
    [14, 9, 38, 28, 1, 1, 2, 1, 1, 1, 1, 1, 1],
    [13, 7, 32, 25, 4, 5, 8, 2, 1, 1, 1, 1, 1],
    [30, 18, 5, 5, 1, 1, 5, 20, 6, 6, 1, 1, 1],
    [8, 4, 8, 8, 2, 2, 4, 3, 3, 3, 35, 8, 12],
];

pub(crate) struct Plan {
    pub(crate) random: Random,
    pub(crate) rehearsal: Rehearsal,
    text: Vec<u8>,
    /// The few names and the few objects of each partition that this schedule uses.
    names: Vec<&'static [u8]>,
    objects: u32,
    directories: u32,
    /// With so many records open, steps are mostly taken instead of new work.
    crowd: usize,
    mood: [u32; 13],
}

/// The schedule of this seed, for the program.
pub fn schedule(seed: u64) -> Vec<u8> {
    schedule_from(seed, 0)
}

/// The schedule of this seed for partitions that have already given numbers up to `last`.
pub fn schedule_from(seed: u64, last: u32) -> Vec<u8> {
    let mut plan = Plan::new(seed, last);
    plan.begin();
    let lines = if plan.rehearsal.opened {
        match plan.random.below(12) {
            0 => plan.fill_log(),
            1 => plan.fill_entries(),
            2 => plan.fill_queue(),
            _ => 105,
        }
    } else {
        15
    };
    for _ in 0..=plan.random.below(lines) {
        let line = plan.line();
        plan.say(&line);
    }
    if plan.random.percent(15) {
        plan.text.pop();
    }
    plan.text
}

impl Plan {
    fn new(seed: u64, last: u32) -> Plan {
        let mut random = Random::new(seed);
        let first = random.below(NAMES.len() as u32) as usize;
        let names = NAMES.iter().cycle().skip(first);
        Plan {
            names: names.take(1 + random.below(4) as usize).copied().collect(),
            objects: 1 + random.below(3),
            directories: 1 + random.below(2),
            crowd: 1 + random.below(8) as usize,
            mood: random.pick(&MOODS),
            rehearsal: Rehearsal::from_last(last),
            text: Vec::new(),
            random,
        }
    }

    /// Writes a line and rehearses it. A line with an LF within is more than one.
    pub(crate) fn say(&mut self, line: &[u8]) {
        self.text.extend_from_slice(line);
        self.text.push(b'\n');
        for part in line.split(|byte| *byte == b'\n') {
            self.rehearsal.respond(part);
        }
    }

    /// Lines before the tables are open, and the one that opens them, mostly.
    fn begin(&mut self) {
        if self.random.percent(15) {
            for _ in 0..self.random.below(5) {
                let line = match self.random.below(3) {
                    0 => format!("P {}", self.random.pick(&[0, 5, 6, u32::MAX])).into_bytes(),
                    1 => self.line(),
                    _ => {
                        let line = self.line();
                        spoil(&mut self.random, &line)
                    }
                };
                self.say(&line);
            }
        }
        if self.random.percent(98) {
            let count = self.random.pick(&[1, 2, 2, 2, 3, 3, 4]);
            self.say(format!("P {count}").as_bytes());
        }
    }

    fn count(&self) -> u32 {
        self.rehearsal.tables.count.max(1)
    }

    pub(crate) fn partition(&mut self) -> u32 {
        self.random.below(self.count())
    }

    /// Mostly one that is up.
    fn up_partition(&mut self) -> u32 {
        let partition = self.partition();
        if self.rehearsal.tables.partition(partition).up {
            partition
        } else {
            self.partition()
        }
    }

    pub(crate) fn directory(&mut self) -> u32 {
        if self.random.percent(5) {
            self.random.below(DIRECTORIES)
        } else {
            self.random.below(self.directories)
        }
    }

    pub(crate) fn object(&mut self) -> u32 {
        if self.random.percent(5) {
            OBJECTS - 1
        } else {
            self.random.below(self.objects)
        }
    }

    /// One line of this schedule's mood.
    fn line(&mut self) -> Vec<u8> {
        let mut rest = self.random.below(self.mood.iter().sum());
        let mut place = 0;
        while rest >= self.mood[place] {
            rest -= self.mood[place];
            place += 1;
        }
        match ACTS[place] {
            Act::Add if self.is_crowded() && self.random.percent(80) => self.advance(),
            Act::Add => self.add(),
            Act::Unlink => self.unlink(),
            Act::Advance => self.advance(),
            Act::Deliver => self.deliver(),
            Act::Cut => pair("B", self.partition(), self.partition()),
            Act::Crash => format!("K {}", self.partition()).into_bytes(),
            Act::Recover => self.recover(),
            Act::Settle => {
                let n = self.random.pick(&[0, 1, 2, 3, 5, 8, 13, 100, u32::MAX]);
                format!("Z {n}").into_bytes()
            }
            Act::Totals => b"S".to_vec(),
            Act::Lengths => b"Q".to_vec(),
            Act::BadLine => {
                let line = self.good();
                spoil(&mut self.random, &line)
            }
            Act::BadName => self.bad_name(),
            Act::OutOfRange => self.out_of_range(),
        }
    }

    fn is_crowded(&self) -> bool {
        self.rehearsal.tables.totals().records >= self.crowd
    }

    /// A line to be spoiled.
    fn good(&mut self) -> Vec<u8> {
        match self.random.below(8) {
            0..=2 => self.add(),
            3 => self.unlink(),
            4 => self.advance(),
            5 => self.deliver(),
            6 => self.recover(),
            _ => self
                .random
                .pick(&[&b"Z 4"[..], b"S", b"Q", b"B 0 1", b"K 0"])
                .to_vec(),
        }
    }

    /// Mostly a link to an object in use or a create of an idle one; often under a name that
    /// an open record also bears.
    fn add(&mut self) -> Vec<u8> {
        let home = self.up_partition();
        let mut place = (home, self.directory());
        let mut name = Name::new(self.random.pick(&self.names));
        let mut object = (self.up_partition(), self.object());
        let open = self.rehearsal.tables.partition(home).records.items();
        if !open.is_empty() && self.random.percent(45) {
            let twin = self.random.pick(open).transaction;
            place.1 = twin.directory;
            name = twin.name;
            if self.random.percent(40) {
                object = (twin.object.partition, twin.object.number);
            }
        }
        let idle = self.rehearsal.tables.partition(object.0).is_idle(object.1);
        let fits = self.random.percent(75);
        let letter = if idle == fits { "C" } else { "L" };
        asking(letter, place, bytes(&name), Some(object))
    }

    /// Mostly of an entry that stands in a partition that is up.
    fn unlink(&mut self) -> Vec<u8> {
        let home = self.up_partition();
        let entries = self.rehearsal.tables.partition(home).entries.items();
        if entries.is_empty() && self.random.percent(60) {
            return self.add();
        }
        if entries.is_empty() || self.random.percent(10) {
            let place = (self.partition(), self.directory());
            let name = self.random.pick(&self.names);
            return asking("U", place, name, None);
        }
        let entry = self.random.pick(entries);
        asking("U", (home, entry.directory), bytes(&entry.name), None)
    }

    /// Mostly of an open record, and mostly of one that is not sent in a partition that is up.
    pub(crate) fn advance(&mut self) -> Vec<u8> {
        let any = self.random.percent(15);
        let mut open = Vec::new();
        for partition in 0..self.rehearsal.tables.count {
            let home = self.rehearsal.tables.partition(partition);
            let movable = |r: &&Record| any || (home.up && r.stage != Stage::Sent);
            let records = home.records.items().iter().filter(movable);
            open.extend(records.map(|r| (partition, r.transaction.number)));
        }
        if open.is_empty() && self.random.percent(75) {
            return self.deliver();
        }
        if open.is_empty() || self.random.percent(6) {
            let partition = self.partition();
            let last = self.rehearsal.tables.partition(partition).last;
            let back = self.random.below(4);
            let number = self.random.pick(&[0, last.saturating_sub(back), u32::MAX]);
            return pair("A", partition, number);
        }
        let (partition, number) = self.random.pick(&open);
        pair("A", partition, number)
    }

    /// Mostly of a queue with a message.
    fn deliver(&mut self) -> Vec<u8> {
        let count = self.count();
        let pairs = (0..count).flat_map(|s| (0..count).map(move |r| (s, r)));
        let filled = |(s, r): &(u32, u32)| self.rehearsal.tables.queue(*s, *r).count > 0;
        let filled: Vec<_> = pairs.filter(filled).collect();
        if filled.is_empty() && self.random.percent(60) {
            return self.add();
        }
        if filled.is_empty() || self.random.percent(8) {
            return pair("D", self.partition(), self.partition());
        }
        let (sender, receiver) = self.random.pick(&filled);
        pair("D", sender, receiver)
    }

    /// Mostly of a partition that is down.
    fn recover(&mut self) -> Vec<u8> {
        let tables = &self.rehearsal.tables;
        let down: Vec<_> = (0..tables.count)
            .filter(|p| !tables.partition(*p).up)
            .collect();
        if down.is_empty() && self.random.percent(60) {
            return self.advance();
        }
        let partition = if down.is_empty() || self.random.percent(10) {
            self.partition()
        } else {
            self.random.pick(&down)
        };
        format!("R {partition}").into_bytes()
    }

    fn bad_name(&mut self) -> Vec<u8> {
        let letter = self.random.pick(&["L", "C", "U"]);
        let place = (self.partition(), self.directory());
        let name = bad_name(&mut self.random);
        let object = (self.partition(), self.object());
        asking(letter, place, &name, (letter != "U").then_some(object))
    }

    /// A command with one number at or past the edge of its range, sometimes with a bad name.
    fn out_of_range(&mut self) -> Vec<u8> {
        let letter = self.random.pick(&["L", "C", "U", "A", "D", "B", "K", "R"]);
        let mut numbers = [
            self.partition(),
            self.directory(),
            self.partition(),
            self.object(),
        ];
        let ends = [self.count(), DIRECTORIES, self.count(), OBJECTS];
        let field = self.random.below(4) as usize;
        numbers[field] = past(&mut self.random, ends[field]);
        let [partition, directory, other, object] = numbers;
        let name = if self.random.percent(20) {
            bad_name(&mut self.random)
        } else {
            self.random.pick(&self.names).to_vec()
        };
        match letter {
            "L" | "C" => asking(letter, (partition, directory), &name, Some((other, object))),
            "U" => asking(letter, (partition, directory), &name, None),
            "A" => pair(letter, partition, object),
            "D" | "B" => pair(letter, partition, other),
            _ => format!("{letter} {partition}").into_bytes(),
        }
    }
}

fn bytes(name: &Name) -> &[u8] {
    &name.bytes[..usize::from(name.length)]
}

pub(crate) fn pair(letter: &str, one: u32, other: u32) -> Vec<u8> {
    format!("{letter} {one} {other}").into_bytes()
}

/// A link, create or unlink; place is partition and directory, object partition and number.
pub(crate) fn asking(
    letter: &str,
    place: (u32, u32),
    name: &[u8],
    object: Option<(u32, u32)>,
) -> Vec<u8> {
    let mut line = format!("{letter} {} {} ", place.0, place.1).into_bytes();
    line.extend_from_slice(name);
    if let Some((partition, number)) = object {
        line.extend_from_slice(format!(" {partition} {number}").as_bytes());
    }
    line
}
