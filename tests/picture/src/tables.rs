//! The stable tables of one partition, and their picture: rows of fields, most significant byte
//! first, a two-byte mark before each. A row may hold any values, so bad pictures are written too.

pub const PARTITIONS: u8 = 4;
pub const DIRECTORIES: u8 = 4;
pub const OBJECTS: u8 = 64;
pub const ENTRIES: usize = 64;
pub const BACK_POINTERS: usize = 64;
pub const RECORDS: usize = 16;

pub const LINK: u8 = 1;
pub const CREATE: u8 = 2;
pub const UNLINK: u8 = 3;

/// The bytes come first here because two names are compared in this order, and mostly differ there.
#[derive(Clone, Copy, Debug, PartialEq, Eq)]
pub struct Name {
    pub bytes: [u8; 8],
    pub length: u8,
}

#[derive(Clone, Copy, Debug)]
pub struct Head {
    pub partition: u8,
    pub partitions: u8,
    pub last: u32,
}

#[derive(Clone, Copy, Debug)]
pub struct Entry {
    pub directory: u8,
    pub object_partition: u8,
    pub object: u8,
    pub name: Name,
    pub number: u32,
}

#[derive(Clone, Copy, Debug)]
pub struct BackPointer {
    pub object: u8,
    pub parent: u8,
    pub directory: u8,
    pub name: Name,
    pub number: u32,
}

#[derive(Clone, Copy, Debug)]
pub struct Record {
    pub kind: u8,
    pub directory: u8,
    pub object_partition: u8,
    pub object: u8,
    pub name: Name,
    pub number: u32,
}

#[derive(Clone, Debug)]
pub struct Tables {
    pub head: Head,
    pub entries: Vec<Entry>,
    pub back_pointers: Vec<BackPointer>,
    pub records: Vec<Record>,
}

/// One record of a picture, in the picture's sense.
#[derive(Clone, Copy, Debug)]
pub enum Row {
    Head(Head),
    Entry(Entry),
    BackPointer(BackPointer),
    Record(Record),
    Close(u16),
}

impl Tables {
    pub fn new(head: Head) -> Tables {
        Tables {
            head,
            entries: Vec::with_capacity(ENTRIES),
            back_pointers: Vec::with_capacity(BACK_POINTERS),
            records: Vec::with_capacity(RECORDS),
        }
    }

    /// How many entries, back-pointers and records there are together.
    pub fn count(&self) -> usize {
        self.entries.len() + self.back_pointers.len() + self.records.len()
    }

    pub fn rows(&self) -> Vec<Row> {
        let mut rows = vec![Row::Head(self.head)];
        rows.extend(self.entries.iter().copied().map(Row::Entry));
        rows.extend(self.back_pointers.iter().copied().map(Row::BackPointer));
        rows.extend(self.records.iter().copied().map(Row::Record));
        rows.push(Row::Close(self.count() as u16));
        rows
    }
}

impl Row {
    fn write(&self, bytes: &mut Vec<u8>) {
        match self {
            Row::Head(h) => {
                bytes.extend([b'H', b'D', h.partition, h.partitions]);
                bytes.extend(h.last.to_be_bytes());
            }
            Row::Entry(e) => {
                bytes.extend([b'E', b'N', e.directory, e.object_partition, e.object]);
                write_named(bytes, e.name, e.number);
            }
            Row::BackPointer(b) => {
                bytes.extend([b'B', b'P', b.object, b.parent, b.directory]);
                write_named(bytes, b.name, b.number);
            }
            Row::Record(r) => {
                bytes.extend([b'L', b'G', r.kind, r.directory]);
                bytes.extend([r.object_partition, r.object]);
                write_named(bytes, r.name, r.number);
            }
            Row::Close(count) => {
                bytes.extend(b"ED");
                bytes.extend(count.to_be_bytes());
            }
        }
    }
}

fn write_named(bytes: &mut Vec<u8>, name: Name, number: u32) {
    bytes.push(name.length);
    bytes.extend(name.bytes);
    bytes.extend(number.to_be_bytes());
}

/// The bytes of the rows, one after the other.
pub fn picture(rows: &[Row]) -> Vec<u8> {
    let mut bytes = Vec::with_capacity(19 * rows.len());
    for row in rows {
        row.write(&mut bytes);
    }
    bytes
}
