//! The tables of the whole service: partitions with their entries, back-pointers and log
//! records, and the queues of messages between them.

pub const PARTITIONS: usize = 4;
pub const DIRECTORIES: u32 = 4;
pub const OBJECTS: u32 = 64;
pub const ENTRIES: usize = 64;
pub const BACKPOINTERS: usize = 64;
pub const RECORDS: usize = 16;
pub const QUEUE: usize = 32;
pub const NAME: usize = 8;
pub const LAST_NUMBER: u32 = 4_294_967_295;

/// A counted list with a fixed number of slots; the slots past the count are zero.
#[derive(Clone, Debug, PartialEq, Eq)]
pub struct List<T, const N: usize> {
    pub count: usize,
    pub slots: [T; N],
}

impl<T: Copy + Default, const N: usize> Default for List<T, N> {
    fn default() -> Self {
        List {
            count: 0,
            slots: [T::default(); N],
        }
    }
}

impl<T: Copy + Default + PartialEq, const N: usize> List<T, N> {
    pub fn items(&self) -> &[T] {
        &self.slots[..self.count]
    }

    pub fn items_mut(&mut self) -> &mut [T] {
        &mut self.slots[..self.count]
    }

    pub fn is_full(&self) -> bool {
        self.count >= N
    }

    /// The count is within the slots and every slot past it is zero.
    pub fn is_sound(&self) -> bool {
        self.count <= N && self.slots[self.count..].iter().all(|s| *s == T::default())
    }

    /// A new item goes last. The caller has seen that there is room.
    pub fn push(&mut self, item: T) {
        self.slots[self.count] = item;
        self.count += 1;
    }

    /// A removed item closes the gap.
    pub fn remove(&mut self, place: usize) -> T {
        let item = self.items()[place];
        self.slots.copy_within(place + 1..self.count, place);
        self.count -= 1;
        self.slots[self.count] = T::default();
        item
    }

    pub fn clear(&mut self) {
        *self = List::default();
    }
}

/// A length and eight bytes, the unused ones zero.
#[derive(Clone, Copy, Debug, Default, PartialEq, Eq)]
pub struct Name {
    pub length: u8,
    pub bytes: [u8; NAME],
}

impl Name {
    /// The name with these bytes; of more than eight a name that is bad by its length.
    pub fn new(text: &[u8]) -> Name {
        let kept = text.len().min(NAME);
        let mut bytes = [0; NAME];
        bytes[..kept].copy_from_slice(&text[..kept]);
        Name {
            length: u8::try_from(text.len()).unwrap_or(u8::MAX),
            bytes,
        }
    }

    pub fn is_good(&self) -> bool {
        let length = usize::from(self.length);
        (1..=NAME).contains(&length)
            && self.bytes[..length].iter().all(|b| *b != 0 && *b != b'/')
            && self.bytes[length..].iter().all(|b| *b == 0)
    }
}

#[derive(Clone, Copy, Debug, Default, PartialEq, Eq)]
pub struct Object {
    pub partition: u32,
    pub number: u32,
}

#[derive(Clone, Copy, Debug, Default, PartialEq, Eq)]
pub struct Entry {
    pub directory: u32,
    pub name: Name,
    pub object: Object,
    pub number: u32,
}

/// Stands in the object's partition, so the object is its number alone.
#[derive(Clone, Copy, Debug, Default, PartialEq, Eq)]
pub struct BackPointer {
    pub object: u32,
    pub parent: u32,
    pub directory: u32,
    pub name: Name,
    pub number: u32,
}

#[derive(Clone, Copy, Debug, Default, PartialEq, Eq)]
pub enum Kind {
    #[default]
    Link,
    Create,
    Unlink,
}

/// Why an add was answered with no.
#[derive(Clone, Copy, Debug, PartialEq, Eq)]
pub enum Reason {
    OtherNumber,
    LinkToIdle,
    CreateInUse,
    BackPointersFull,
}

impl Reason {
    pub fn number(self) -> u32 {
        match self {
            Reason::OtherNumber => 3,
            Reason::LinkToIdle => 4,
            Reason::CreateInUse => 5,
            Reason::BackPointersFull => 6,
        }
    }
}

#[derive(Clone, Copy, Debug, Default, PartialEq, Eq)]
pub enum Stage {
    #[default]
    Ready,
    Sent,
    Held,
    Refused(Reason),
    Cleared,
}

/// What a record and the messages about it have in common.
#[derive(Clone, Copy, Debug, Default, PartialEq, Eq)]
pub struct Transaction {
    pub kind: Kind,
    pub directory: u32,
    pub name: Name,
    pub object: Object,
    pub number: u32,
}

#[derive(Clone, Copy, Debug, Default, PartialEq, Eq)]
pub struct Record {
    pub transaction: Transaction,
    pub stage: Stage,
}

/// What a message says. A no to an add has a reason, a no to a removal has none.
#[derive(Clone, Copy, Debug, Default, PartialEq, Eq)]
pub enum Word {
    #[default]
    Request,
    Yes,
    No(Option<Reason>),
}

#[derive(Clone, Copy, Debug, Default, PartialEq, Eq)]
pub struct Message {
    pub transaction: Transaction,
    pub word: Word,
}

pub type Queue = List<Message, QUEUE>;

#[derive(Clone, Debug, Default, PartialEq, Eq)]
pub struct Partition {
    pub up: bool,
    pub last: u32,
    pub entries: List<Entry, ENTRIES>,
    pub backpointers: List<BackPointer, BACKPOINTERS>,
    pub records: List<Record, RECORDS>,
}

impl Partition {
    /// The place of the entry under this directory and name.
    pub fn entry_under(&self, directory: u32, name: &Name) -> Option<usize> {
        let mut entries = self.entries.items().iter();
        entries.position(|e| e.directory == directory && e.name == *name)
    }

    /// The place of the entry that bears this number.
    pub fn entry_numbered(&self, number: u32) -> Option<usize> {
        self.entries.items().iter().position(|e| e.number == number)
    }

    /// The place of the open record with this number.
    pub fn record_numbered(&self, number: u32) -> Option<usize> {
        let mut records = self.records.items().iter();
        records.position(|r| r.transaction.number == number)
    }

    /// The sum in O5: entries, plus link and create records whose number no entry bears.
    pub fn entries_and_promises(&self) -> usize {
        let promised = |r: &&Record| {
            let transaction = &r.transaction;
            transaction.kind != Kind::Unlink && self.entry_numbered(transaction.number).is_none()
        };
        self.entries.count + self.records.items().iter().filter(promised).count()
    }

    /// An object is idle exactly when it has no back-pointer.
    pub fn is_idle(&self, object: u32) -> bool {
        self.backpointers.items().iter().all(|b| b.object != object)
    }
}

/// All partitions, and a queue for each sender (first place) and receiver (second place).
#[derive(Clone, Debug, Default, PartialEq, Eq)]
pub struct Tables {
    pub count: u32,
    pub partitions: [Partition; PARTITIONS],
    pub queues: [[Queue; PARTITIONS]; PARTITIONS],
}

/// The totals over all partitions and queues.
#[derive(Clone, Copy, Debug, PartialEq, Eq)]
pub struct Totals {
    pub entries: usize,
    pub backpointers: usize,
    pub records: usize,
    pub messages: usize,
}

impl Tables {
    /// The fresh tables of so many partitions, all up.
    pub fn fresh(count: u32) -> Tables {
        let mut tables = Tables {
            count,
            ..Tables::default()
        };
        for partition in &mut tables.partitions[..count as usize] {
            partition.up = true;
        }
        tables
    }

    /// The partition is within the count.
    pub fn has(&self, partition: u32) -> bool {
        partition < self.count
    }

    pub fn partition(&self, partition: u32) -> &Partition {
        &self.partitions[partition as usize]
    }

    pub fn partition_mut(&mut self, partition: u32) -> &mut Partition {
        &mut self.partitions[partition as usize]
    }

    pub fn queue(&self, sender: u32, receiver: u32) -> &Queue {
        &self.queues[sender as usize][receiver as usize]
    }

    pub fn queue_mut(&mut self, sender: u32, receiver: u32) -> &mut Queue {
        &mut self.queues[sender as usize][receiver as usize]
    }

    pub fn totals(&self) -> Totals {
        let sum = |count: fn(&Partition) -> usize| self.partitions.iter().map(count).sum();
        Totals {
            entries: sum(|p| p.entries.count),
            backpointers: sum(|p| p.backpointers.count),
            records: sum(|p| p.records.count),
            messages: self.queues.iter().flatten().map(|q| q.count).sum(),
        }
    }

    /// The queue lengths as a square, one row for each sender.
    pub fn queue_lengths(&self) -> [[usize; PARTITIONS]; PARTITIONS] {
        self.queues
            .each_ref()
            .map(|row| row.each_ref().map(|queue| queue.count))
    }
}
