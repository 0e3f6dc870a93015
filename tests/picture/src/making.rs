//! Tables made at random from few names, objects and numbers, so that much in them nearly clashes:
//! tables in order, and ones that keep and promise too many entries.

use crate::random::Random;
use crate::tables::{
    BackPointer, Entry, Head, Name, Record, Tables, BACK_POINTERS, CREATE, DIRECTORIES, ENTRIES,
    LINK, OBJECTS, PARTITIONS, RECORDS, UNLINK,
};

/// How many of each; a promised record is a link or create whose number no entry bears.
pub struct Size {
    pub entries: usize,
    pub back_pointers: usize,
    pub promised: usize,
    pub other_records: usize,
}

/// The size of the largest picture, 2,620 bytes.
pub const LARGEST: Size = Size {
    entries: ENTRIES,
    back_pointers: BACK_POINTERS,
    promised: 0,
    other_records: RECORDS,
};

impl Size {
    pub fn any(random: &mut Random) -> Size {
        let most = random.pick(&[2, 2, 2, 4, 4, 8, 16, 64]);
        let entries = random.below(most + 1);
        let records = random.below(most.min(RECORDS) + 1);
        let promised = random.below(records.min(ENTRIES - entries) + 1);
        Size {
            entries,
            back_pointers: random.below(most + 1),
            promised,
            other_records: records - promised,
        }
    }

    /// All records open, and exactly 64 entries kept and promised.
    pub fn full(random: &mut Random) -> Size {
        let promised = random.below(RECORDS + 1);
        Size {
            entries: ENTRIES - promised,
            back_pointers: BACK_POINTERS,
            promised,
            other_records: RECORDS - promised,
        }
    }

    /// More than 64 entries kept and promised, by one or by more.
    pub fn overfull(random: &mut Random) -> Size {
        let promised = 1 + random.below(RECORDS);
        let excess = 1 + random.below(promised).min(random.below(promised));
        Size {
            entries: ENTRIES - promised + excess,
            back_pointers: random.below(4),
            promised,
            other_records: random.below(RECORDS - promised + 1),
        }
    }
}

/// What the tables are made from; the numbers are all different, and each is given out once.
struct Stock {
    names: Vec<Name>,
    objects: [u8; 3],
    numbers: Vec<u32>,
}

/// Tables of this size, in order but for a size that is overfull.
pub fn tables(random: &mut Random, size: &Size) -> Tables {
    let mut stock = Stock::new(random, size);
    let highest = stock.numbers.iter().copied().max().unwrap_or(0);
    let partitions = 1 + random.below(usize::from(PARTITIONS));
    let mut tables = Tables::new(Head {
        partition: random.below(partitions) as u8,
        partitions: partitions as u8,
        last: random.pick(&[highest, highest, u32::MAX]),
    });
    stock.add_entries(random, &mut tables, size.entries);
    stock.add_back_pointers(random, &mut tables, size.back_pointers);
    stock.add_records(random, &mut tables, size);
    tables
}

impl Stock {
    fn new(random: &mut Random, size: &Size) -> Stock {
        let kinds = 2 + size.entries.max(size.back_pointers) / 3;
        let mut names = Vec::with_capacity(kinds);
        while names.len() < kinds {
            let name = name(random);
            if !names.contains(&name) {
                names.push(name);
            }
        }
        let count = (size.entries + RECORDS) as u32;
        let first = random.pick(&[1, 1, 200, 65_500, 16_777_200, u32::MAX - count + 1]);
        let mut numbers: Vec<u32> = (0..count).map(|more| first + more).collect();
        random.shuffle(&mut numbers);
        Stock {
            names,
            objects: [0, random.below(usize::from(OBJECTS)) as u8, OBJECTS - 1],
            numbers,
        }
    }

    fn number(&mut self) -> u32 {
        self.numbers
            .pop()
            .expect("as many numbers as entries and records")
    }

    fn add_entries(&mut self, random: &mut Random, tables: &mut Tables, count: usize) {
        while tables.entries.len() < count {
            let (directory, name) = (directory(random), random.pick(&self.names));
            let stands = |entry: &Entry| entry.directory == directory && entry.name == name;
            if !tables.entries.iter().any(stands) {
                tables.entries.push(Entry {
                    directory,
                    object_partition: random.below(usize::from(tables.head.partitions)) as u8,
                    object: random.pick(&self.objects),
                    name,
                    number: self.number(),
                });
            }
        }
    }

    fn add_back_pointers(&mut self, random: &mut Random, tables: &mut Tables, count: usize) {
        let place = |b: &BackPointer| (b.object, b.parent, b.directory, b.name);
        while tables.back_pointers.len() < count {
            let item = BackPointer {
                object: random.pick(&self.objects),
                parent: random.below(usize::from(tables.head.partitions)) as u8,
                directory: directory(random),
                name: random.pick(&self.names),
                number: random.pick(&[1, 2, tables.head.last, u32::MAX]),
            };
            if !tables
                .back_pointers
                .iter()
                .any(|b| place(b) == place(&item))
            {
                tables.back_pointers.push(item);
            }
        }
    }

    fn add_records(&mut self, random: &mut Random, tables: &mut Tables, size: &Size) {
        for _ in 0..size.promised {
            let (kind, number) = (random.pick(&[LINK, CREATE]), self.number());
            let record = self.record(random, tables, kind, number);
            tables.records.push(record);
        }
        let mut borne: Vec<u32> = tables.entries.iter().map(|entry| entry.number).collect();
        random.shuffle(&mut borne);
        for _ in 0..size.other_records {
            let taken = if random.once_in(3) { None } else { borne.pop() };
            let (kind, number) = match taken {
                Some(number) => (random.pick(&[LINK, CREATE, UNLINK]), number),
                None => (UNLINK, self.number()),
            };
            let record = self.record(random, tables, kind, number);
            tables.records.push(record);
        }
        random.shuffle(&mut tables.records);
    }

    fn record(&self, random: &mut Random, tables: &Tables, kind: u8, number: u32) -> Record {
        Record {
            kind,
            directory: directory(random),
            object_partition: random.below(usize::from(tables.head.partitions)) as u8,
            object: random.pick(&self.objects),
            name: random.pick(&self.names),
            number,
        }
    }
}

fn directory(random: &mut Random) -> u8 {
    random.below(usize::from(DIRECTORIES)) as u8
}

/// A good name of few letters, those next to the bytes 0 and 47 among them.
fn name(random: &mut Random) -> Name {
    let length = random.pick(&[1, 1, 2, 2, 3, 5, 7, 8, 8]);
    let mut bytes = [0; 8];
    for byte in &mut bytes[..length] {
        *byte = random.pick(&[1, 46, 48, b'a', b'b', 255]);
    }
    Name {
        length: length as u8,
        bytes,
    }
}
