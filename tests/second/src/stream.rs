//! The rehearsal over streams: input of any length, memory constant in it, the answers
//! flushed after each block read.

use std::io::{self, Read, Write};

use crate::demand;
use crate::line::{Rehearsal, LINE};

const BLOCK: usize = 65_536;

/// Why a rehearsal ended before its input did.
#[derive(Debug)]
pub enum Stop {
    Input(io::Error),
    Output(io::Error),
    /// A check of demand 3 failed.
    Broken(String),
}

/// The line under way. Of a line that is too long it keeps just enough to be too long.
struct Gathered {
    bytes: [u8; LINE + 1],
    length: usize,
}

impl Gathered {
    fn add(&mut self, byte: u8) {
        if self.length < self.bytes.len() {
            self.bytes[self.length] = byte;
            self.length += 1;
        }
    }
}

struct Run<'a, W> {
    rehearsal: Rehearsal,
    gathered: Gathered,
    lines: u64,
    output: &'a mut W,
    check: bool,
}

impl<W: Write> Run<'_, W> {
    fn end_line(&mut self) -> Result<(), Stop> {
        self.lines += 1;
        let line = &self.gathered.bytes[..self.gathered.length];
        let response = self.rehearsal.respond(line);
        self.gathered.length = 0;
        response
            .write(self.lines, self.output)
            .map_err(Stop::Output)?;
        if self.check && self.rehearsal.opened {
            let checked = demand::check(&self.rehearsal.tables, self.lines);
            checked.map_err(|what| Stop::Broken(format!("line {}: {what}", self.lines)))?;
        }
        Ok(())
    }

    fn take(&mut self, block: &[u8]) -> Result<(), Stop> {
        for byte in block {
            if *byte == b'\n' {
                self.end_line()?;
            } else {
                self.gathered.add(*byte);
            }
        }
        Ok(())
    }

    fn flush(&mut self) -> Result<(), Stop> {
        self.output.flush().map_err(Stop::Output)
    }
}

fn read_block(input: &mut impl Read, block: &mut [u8]) -> io::Result<usize> {
    loop {
        match input.read(block) {
            Err(error) if error.kind() == io::ErrorKind::Interrupted => {}
            result => return result,
        }
    }
}

/// Answers every line of the input; with `check`, asserts demand 3 after each.
pub fn rehearse(input: &mut impl Read, output: &mut impl Write, check: bool) -> Result<(), Stop> {
    let mut run = Run {
        rehearsal: Rehearsal::default(),
        gathered: Gathered {
            bytes: [0; LINE + 1],
            length: 0,
        },
        lines: 0,
        output,
        check,
    };
    let mut block = vec![0; BLOCK];
    loop {
        let length = read_block(input, &mut block).map_err(Stop::Input)?;
        if length == 0 {
            break;
        }
        let taken = run.take(&block[..length]);
        run.flush()?;
        taken?;
    }
    if run.gathered.length > 0 {
        run.end_line()?;
    }
    run.flush()
}

/// The whole output for an input at hand.
pub fn answers(input: &[u8]) -> Vec<u8> {
    let mut output = Vec::new();
    rehearse(&mut &input[..], &mut output, false).expect("memory neither ends nor closes");
    output
}

/// The same with demand 3 asserted after every event; else what is broken.
pub fn checked_answers(input: &[u8]) -> Result<Vec<u8>, String> {
    let mut output = Vec::new();
    match rehearse(&mut &input[..], &mut output, true) {
        Ok(()) => Ok(output),
        Err(Stop::Broken(what)) => Err(what),
        Err(Stop::Input(_) | Stop::Output(_)) => unreachable!("memory neither ends nor closes"),
    }
}
