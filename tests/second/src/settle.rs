//! The settling run: the first accepted advance or deliver, again and again, with a tally.

use crate::answer::{ensure, Done, Refusal, Reply};
use crate::events::{advance_in_order, deliver_in_order};
use crate::order::in_order;
use crate::tables::Tables;

#[derive(Clone, Copy, Debug, Default, PartialEq, Eq)]
pub struct Tally {
    pub steps: u32,
    /// Replies 1.
    pub moved: u32,
    /// Replies 2 to 6.
    pub failed: u32,
}

impl Tally {
    fn count(&mut self, reply: Reply) {
        self.steps += 1;
        match reply {
            Reply::None => {}
            Reply::Moved => self.moved += 1,
            Reply::Turned | Reply::Failed(_) => self.failed += 1,
        }
    }
}

/// Takes at most n settling steps and reports how many it took.
pub fn settle(tables: &mut Tables, n: u32, tally: &mut Tally) -> Result<u32, Refusal> {
    ensure(in_order(tables), Refusal::OutOfOrder)?;
    *tally = Tally::default();
    while tally.steps < n {
        match settling_step(tables) {
            Some(done) => tally.count(done.reply),
            None => break,
        }
    }
    Ok(tally.steps)
}

/// Takes the first accepted step: advances by partition, then record order; then deliveries
/// by sender, then receiver.
fn settling_step(tables: &mut Tables) -> Option<Done> {
    for partition in 0..tables.count {
        for place in 0..tables.partition(partition).records.count {
            let number = tables.partition(partition).records.items()[place]
                .transaction
                .number;
            if let Ok(done) = advance_in_order(tables, partition, number) {
                return Some(done);
            }
        }
    }
    for sender in 0..tables.count {
        for receiver in 0..tables.count {
            if let Ok(done) = deliver_in_order(tables, sender, receiver) {
                return Some(done);
            }
        }
    }
    None
}
