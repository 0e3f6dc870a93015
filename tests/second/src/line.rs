//! The rehearsal, line by line: a line's bytes to a command, the command and the tables to a
//! response, the response to its text.

use std::io::{self, Write};

use crate::answer::{Done, Outcome, Refusal};
use crate::events;
use crate::settle::{settle, Tally};
use crate::tables::{Name, Object, Tables, Totals, PARTITIONS};

/// The longest line, its LF not counted.
pub const LINE: usize = 64;

#[derive(Clone, Copy, Debug, PartialEq, Eq)]
pub enum Command {
    Open(u32),
    Link(u32, u32, Name, Object),
    Create(u32, u32, Name, Object),
    Unlink(u32, u32, Name),
    Advance(u32, u32),
    Deliver(u32, u32),
    Cut(u32, u32),
    Crash(u32),
    Recover(u32),
    Settle(u32),
    Totals,
    Lengths,
}

/// The fields of a line, between single spaces.
struct Fields<I>(I);

impl<'a, I: Iterator<Item = &'a [u8]>> Fields<I> {
    fn decimal(&mut self) -> Option<u32> {
        decimal(self.0.next()?)
    }

    fn name(&mut self) -> Option<Name> {
        let text = self.0.next()?;
        (!text.is_empty()).then(|| Name::new(text))
    }

    fn object(&mut self) -> Option<Object> {
        Some(Object {
            partition: self.decimal()?,
            number: self.decimal()?,
        })
    }
}

/// A decimal without leading zeros, up to 4,294,967,295.
fn decimal(text: &[u8]) -> Option<u32> {
    if text.is_empty() || (text.len() > 1 && text[0] == b'0') {
        return None;
    }
    text.iter().try_fold(0u32, |value, byte| {
        let digit = byte.is_ascii_digit().then(|| u32::from(byte - b'0'))?;
        value.checked_mul(10)?.checked_add(digit)
    })
}

/// The command of a line without its LF; none if the line is not understood.
pub fn read(line: &[u8]) -> Option<Command> {
    if line.len() > LINE {
        return None;
    }
    let mut split = line.split(|byte| *byte == b' ');
    let letter = split.next()?;
    let mut f = Fields(split);
    let command = match letter {
        b"P" => Command::Open(f.decimal()?),
        b"L" => Command::Link(f.decimal()?, f.decimal()?, f.name()?, f.object()?),
        b"C" => Command::Create(f.decimal()?, f.decimal()?, f.name()?, f.object()?),
        b"U" => Command::Unlink(f.decimal()?, f.decimal()?, f.name()?),
        b"A" => Command::Advance(f.decimal()?, f.decimal()?),
        b"D" => Command::Deliver(f.decimal()?, f.decimal()?),
        b"B" => Command::Cut(f.decimal()?, f.decimal()?),
        b"K" => Command::Crash(f.decimal()?),
        b"R" => Command::Recover(f.decimal()?),
        b"Z" => Command::Settle(f.decimal()?),
        b"S" => Command::Totals,
        b"Q" => Command::Lengths,
        _ => return None,
    };
    f.0.next().is_none().then_some(command)
}

#[derive(Clone, Copy, Debug, PartialEq, Eq)]
pub enum Response {
    Event(Outcome),
    Totals(Totals),
    Lengths(u32, [[usize; PARTITIONS]; PARTITIONS]),
}

/// The response to a command on open tables.
pub fn perform(tables: &mut Tables, command: &Command) -> Response {
    let outcome = match command {
        Command::Open(count) => events::open(tables, *count),
        Command::Link(p, d, name, object) => events::link(tables, *p, *d, name, *object),
        Command::Create(p, d, name, object) => events::create(tables, *p, *d, name, *object),
        Command::Unlink(p, d, name) => events::unlink(tables, *p, *d, name),
        Command::Advance(p, number) => events::advance(tables, *p, *number),
        Command::Deliver(sender, receiver) => events::deliver(tables, *sender, *receiver),
        Command::Cut(one, other) => events::cut(tables, *one, *other),
        Command::Crash(p) => events::crash(tables, *p),
        Command::Recover(p) => events::recover(tables, *p),
        Command::Settle(n) => settle(tables, *n, &mut Tally::default()).map(Done::quiet),
        Command::Totals => return Response::Totals(tables.totals()),
        Command::Lengths => return Response::Lengths(tables.count, tables.queue_lengths()),
    };
    Response::Event(outcome)
}

impl Response {
    /// The text of the response to the line with this number.
    pub fn write(&self, line: u64, output: &mut impl Write) -> io::Result<()> {
        match self {
            Response::Event(Ok(done)) => {
                writeln!(output, "{line} 0 {} {}", done.number, done.reply.number())
            }
            Response::Event(Err(refusal)) => writeln!(output, "{line} {} 0 0", refusal.number()),
            Response::Totals(Totals {
                entries,
                backpointers,
                records,
                messages,
            }) => writeln!(
                output,
                "{line} 0 {entries} {backpointers} {records} {messages}"
            ),
            Response::Lengths(count, square) => {
                write!(output, "{line} 0")?;
                let count = *count as usize;
                for length in square[..count].iter().flat_map(|row| &row[..count]) {
                    write!(output, " {length}")?;
                }
                writeln!(output)
            }
        }
    }
}

/// A rehearsal under way.
#[derive(Clone, Debug, Default)]
pub struct Rehearsal {
    /// The tables, once a `P` has been accepted; zero before.
    pub tables: Tables,
    pub opened: bool,
    /// The last number each partition has after the `P`: 0, except in tests of high numbers.
    first_last: u32,
}

impl Rehearsal {
    /// A rehearsal whose partitions have already given numbers up to this one.
    pub fn from_last(last: u32) -> Rehearsal {
        Rehearsal {
            first_last: last,
            ..Rehearsal::default()
        }
    }

    pub fn respond(&mut self, line: &[u8]) -> Response {
        let command = match read(line) {
            Some(command) if self.opened != matches!(command, Command::Open(_)) => command,
            _ => return Response::Event(Err(Refusal::NotUnderstood)),
        };
        let response = perform(&mut self.tables, &command);
        if !self.opened && matches!(response, Response::Event(Ok(_))) {
            self.opened = true;
            for partition in 0..self.tables.count {
                self.tables.partition_mut(partition).last = self.first_last;
            }
        }
        response
    }
}
