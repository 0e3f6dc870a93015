//! Schedules that fill a log, a partition's entries, back-pointers or a queue to the brim.

use crate::schedule::{asking, pair, Plan};
use crate::tables::{BACKPOINTERS, RECORDS};

const ALL: &[u8] = b"Z 4294967295";

impl Plan {
    fn say_add(&mut self, letter: &str, place: (u32, u32), name: &str, object: (u32, u32)) {
        self.say(&asking(letter, place, name.as_bytes(), Some(object)));
    }

    /// More records in one partition than its log holds; gives how many lines may follow.
    pub(crate) fn fill_log(&mut self) -> u32 {
        let partition = self.partition();
        let object = (self.partition(), self.object());
        self.say_add("C", (partition, 0), "old", object);
        self.say(ALL);
        for place in 0..RECORDS as u32 + 1 + self.random.below(3) {
            let letter = self.random.pick(&["L", "C"]);
            let directory = self.directory();
            let object = (self.partition(), self.object());
            self.say_add(
                letter,
                (partition, directory),
                &format!("n{}", place / 2),
                object,
            );
            if self.random.percent(10) {
                let line = self.advance();
                self.say(&line);
            }
        }
        self.say(&asking("U", (partition, 0), b"old", None));
        90
    }

    /// As many entries as one partition holds, or back-pointers as another one does, some of
    /// them perhaps still in the log; then more. Gives how many lines may follow.
    pub(crate) fn fill_entries(&mut self) -> u32 {
        let homes = [self.partition(), self.partition()];
        let holder = self.partition();
        let few = self.random.below(RECORDS as u32);
        let left_open = self.random.pick(&[0, 0, few, RECORDS as u32]);
        let last_settled = BACKPOINTERS as u32 - 1 - left_open;
        for place in 0..BACKPOINTERS as u32 {
            let is_link = place > 0 && self.random.percent(20);
            let (letter, object) = if is_link { ("L", 0) } else { ("C", place) };
            let home = homes[place as usize % 2];
            self.say_add(
                letter,
                (home, place % 4),
                &format!("e{place}"),
                (holder, object),
            );
            if place == last_settled || (place % 16 == 15 && place < last_settled) {
                self.say(ALL);
            }
        }
        self.overfill(homes[0], holder);
        15
    }

    /// Adds past the full tables, followed step by step.
    fn overfill(&mut self, home: u32, holder: u32) {
        let elsewhere = self.partition();
        for partition in [home, elsewhere, elsewhere] {
            let (letter, object) = self.random.pick(&[("L", 0), ("C", 1), ("L", 2)]);
            let name = format!("o{}", self.random.below(3));
            self.say_add(letter, (partition, 0), &name, (holder, object));
            let number = self.rehearsal.tables.partition(partition).last;
            self.say(&pair("A", partition, number));
            self.say(&pair("D", partition, holder));
            self.say(&pair("D", holder, partition));
            self.say(&pair("A", partition, number));
        }
    }

    /// All records of two full logs sent to each other's partition and those of one side
    /// answered: a queue with 32 messages, between two. Gives how many lines may follow.
    pub(crate) fn fill_queue(&mut self) -> u32 {
        let one = self.partition();
        let other = self.partition();
        for place in 0..RECORDS as u32 {
            let name = format!("q{place}");
            self.say_add("C", (one, 0), &name, (other, place));
            self.say_add("C", (other, 1), &name, (one, place));
        }
        self.say(b"Z 32");
        for _ in 0..RECORDS {
            self.say(&pair("D", other, one));
        }
        self.say(b"Q");
        50
    }
}
