// The same file in plain Rust, written to standard output: ROWS SEED. Ends are found while a page is written, and those of a chunk from those of its pages.
use std::fs::File;
use std::io::Write;
use std::mem::ManuallyDrop;
use std::os::fd::FromRawFd;

const GROUP_ROWS: u64 = 20_000;
// kinds of fields and of elements
const TRUE: u8 = 1;
const FALSE: u8 = 2;
const I32: u8 = 5;
const I64: u8 = 6;
const BINARY: u8 = 8;
const LIST: u8 = 9;
const STRUCT: u8 = 12;

static PAIRS: [u8; 200] = {
    let mut pairs = [0; 200];
    let mut i = 0;
    while i < 100 {
        pairs[2 * i] = b'0' + (i / 10) as u8;
        pairs[2 * i + 1] = b'0' + (i % 10) as u8;
        i += 1;
    }
    pairs
};

fn varint(out: &mut Vec<u8>, mut n: u64) {
    while n >= 128 {
        out.push(n as u8 | 128);
        n >>= 7;
    }
    out.push(n as u8);
}

/// The fields of a struct, in rising order.
struct Fields<'a> {
    out: &'a mut Vec<u8>,
    last: u8,
}

impl<'a> Fields<'a> {
    fn new(out: &'a mut Vec<u8>) -> Self {
        Fields { out, last: 0 }
    }

    fn start(&mut self, id: u8, kind: u8) {
        self.out.push((id - self.last) << 4 | kind);
        self.last = id;
    }

    fn number(&mut self, id: u8, kind: u8, n: u64) -> &mut Self {
        self.start(id, kind);
        varint(self.out, 2 * n);
        self
    }

    fn i32(&mut self, id: u8, n: u32) -> &mut Self {
        self.number(id, I32, n.into())
    }

    fn i64(&mut self, id: u8, n: u64) -> &mut Self {
        self.number(id, I64, n)
    }

    fn binary(&mut self, id: u8, bytes: &[u8]) -> &mut Self {
        self.start(id, BINARY);
        binary(self.out, bytes);
        self
    }

    fn structure(&mut self, id: u8, fields: impl FnOnce(&mut Fields)) -> &mut Self {
        self.start(id, STRUCT);
        structure(self.out, fields);
        self
    }

    fn list<T>(&mut self, id: u8, kind: u8, items: &[T], mut write: impl FnMut(&mut Vec<u8>, &T)) -> &mut Self {
        self.start(id, LIST);
        if items.len() < 15 {
            self.out.push((items.len() as u8) << 4 | kind);
        } else {
            self.out.push(0xf0 | kind);
            varint(self.out, items.len() as u64);
        }
        for item in items {
            write(self.out, item);
        }
        self
    }
}

fn structure(out: &mut Vec<u8>, fields: impl FnOnce(&mut Fields)) {
    fields(&mut Fields::new(out));
    out.push(0);
}

fn binary(out: &mut Vec<u8>, bytes: &[u8]) {
    varint(out, bytes.len() as u64);
    out.extend_from_slice(bytes);
}

#[derive(Clone, Copy)]
enum Column {
    Id,
    Qty,
    Name,
}

const COLUMNS: [Column; 3] = [Column::Id, Column::Qty, Column::Name];

impl Column {
    fn name(self) -> &'static str {
        match self {
            Column::Id => "id",
            Column::Qty => "qty",
            Column::Name => "name",
        }
    }

    fn physical(self) -> u32 {
        match self {
            Column::Id => 2,
            Column::Qty => 1,
            Column::Name => 6,
        }
    }

    fn is_optional(self) -> bool {
        matches!(self, Column::Qty)
    }

    fn page_rows(self) -> u64 {
        match self {
            Column::Id => 1000,
            Column::Qty => 700,
            Column::Name => 450,
        }
    }
}

/// The least and the greatest item, as they are stored.
#[derive(Clone)]
struct Ends {
    least: Vec<u8>,
    greatest: Vec<u8>,
}

struct Page {
    offset: u64,
    size: u32,
    first_row: u64,
    nulls: u32,
    ends: Option<Ends>,
}

struct Chunk {
    start: u64,
    size: u64,
    rows: u64,
    nulls: u32,
    ends: Option<Ends>,
    index: (u64, u32),
    locations: (u64, u32),
}

struct Group {
    rows: u64,
    chunks: Vec<Chunk>,
}

fn ids(body: &mut Vec<u8>, first: u64, rows: u64) -> Option<Ends> {
    for n in first..first + rows {
        body.extend_from_slice(&n.to_le_bytes());
    }
    let (least, greatest) = (first, first + rows - 1);
    Some(Ends { least: least.to_le_bytes().into(), greatest: greatest.to_le_bytes().into() })
}

fn quantities(body: &mut Vec<u8>, first: u64, rows: u64) -> (Option<Ends>, u32) {
    let bytes = rows.div_ceil(8);
    let place = body.len();
    body.extend_from_slice(&[0; 4]);
    varint(body, 2 * bytes + 1);
    for row in (0..rows).step_by(8) {
        let bits = (row..rows.min(row + 8)).map(|at| u8::from((first + at) % 5 != 0) << (at - row));
        body.push(bits.sum());
    }
    let length = (body.len() - place - 4) as u32;
    body[place..place + 4].copy_from_slice(&length.to_le_bytes());
    let (mut least, mut greatest, mut nulls) = (u32::MAX, 0, 0);
    for n in first..first + rows {
        if n % 5 == 0 {
            nulls += 1;
        } else {
            let quantity = (n % 1000) as u32;
            least = least.min(quantity);
            greatest = greatest.max(quantity);
            body.extend_from_slice(&quantity.to_le_bytes());
        }
    }
    let ends = (u64::from(nulls) < rows).then(|| Ends { least: least.to_le_bytes().into(), greatest: greatest.to_le_bytes().into() });
    (ends, nulls)
}

/// `r` and the digits behind their length. Returns where the text stands.
fn name(body: &mut Vec<u8>, mut n: u64) -> std::ops::Range<usize> {
    let mut digits = [0; 20];
    let mut at = 20;
    while n >= 100 {
        let pair = 2 * (n % 100) as usize;
        n /= 100;
        at -= 2;
        digits[at..at + 2].copy_from_slice(&PAIRS[pair..pair + 2]);
    }
    if n >= 10 {
        let pair = 2 * n as usize;
        at -= 2;
        digits[at..at + 2].copy_from_slice(&PAIRS[pair..pair + 2]);
    } else {
        at -= 1;
        digits[at] = b'0' + n as u8;
    }
    body.extend_from_slice(&(21 - at as u32).to_le_bytes());
    let start = body.len();
    body.push(b'r');
    body.extend_from_slice(&digits[at..]);
    start..body.len()
}

fn names(body: &mut Vec<u8>, first: u64, rows: u64) -> Option<Ends> {
    let mut least = name(body, first);
    let mut greatest = least.clone();
    for n in first + 1..first + rows {
        let place = name(body, n);
        if body[place.clone()] < body[least.clone()] {
            least = place;
        } else if body[place.clone()] > body[greatest.clone()] {
            greatest = place;
        }
    }
    Some(Ends { least: body[least].into(), greatest: body[greatest].into() })
}

/// A page. The body is room to work in.
fn write_page(out: &mut Vec<u8>, body: &mut Vec<u8>, column: Column, first: u64, rows: u64, first_row: u64) -> Page {
    body.clear();
    let (ends, nulls) = match column {
        Column::Id => (ids(body, first, rows), 0),
        Column::Qty => quantities(body, first, rows),
        Column::Name => (names(body, first, rows), 0),
    };
    let start = out.len();
    let length = body.len() as u32;
    structure(out, |header| {
        header.i32(1, 0).i32(2, length).i32(3, length);
        header.structure(5, |data| {
            data.i32(1, rows as u32).i32(2, 0).i32(3, 3).i32(4, 3);
        });
    });
    out.extend_from_slice(body);
    Page { offset: start as u64, size: (out.len() - start) as u32, first_row, nulls, ends }
}

fn write_column_index(out: &mut Vec<u8>, pages: &[Page]) {
    structure(out, |index| {
        index.list(1, TRUE, pages, |out, page| out.push(if page.ends.is_none() { TRUE } else { FALSE }));
        index.list(2, BINARY, pages, |out, page| binary(out, page.ends.as_ref().map_or(&[], |ends| &ends.least)));
        index.list(3, BINARY, pages, |out, page| binary(out, page.ends.as_ref().map_or(&[], |ends| &ends.greatest)));
        index.i32(4, 0);
        index.list(5, I64, pages, |out, page| varint(out, 2 * u64::from(page.nulls)));
    });
}

fn write_offset_index(out: &mut Vec<u8>, pages: &[Page]) {
    structure(out, |index| {
        index.list(1, STRUCT, pages, |out, page| {
            structure(out, |location| {
                location.i64(1, page.offset).i32(2, page.size).i64(3, page.first_row);
            })
        });
    });
}

/// Whether one stored item comes before another.
fn is_before(column: Column, one: &[u8], other: &[u8]) -> bool {
    match column {
        Column::Id | Column::Qty => one.iter().rev().lt(other.iter().rev()),
        Column::Name => one < other,
    }
}

fn ends_of(column: Column, pages: &[Page]) -> Option<Ends> {
    let mut all = pages.iter().filter_map(|page| page.ends.as_ref());
    let mut ends = all.next()?.clone();
    for page in all {
        if is_before(column, &page.least, &ends.least) {
            ends.least.clone_from(&page.least);
        }
        if is_before(column, &ends.greatest, &page.greatest) {
            ends.greatest.clone_from(&page.greatest);
        }
    }
    Some(ends)
}

#[derive(Default)]
struct Parts {
    chunks: Vec<u8>,
    indexes: Vec<u8>,
    locations: Vec<u8>,
    body: Vec<u8>,
}

fn write_chunk(parts: &mut Parts, column: Column, first: u64, rows: u64) -> Chunk {
    let Parts { chunks, indexes, locations, body } = parts;
    let (start, index, place) = (chunks.len(), indexes.len(), locations.len());
    let mut pages = Vec::new();
    let mut row = 0;
    while row < rows {
        let count = column.page_rows().min(rows - row);
        pages.push(write_page(chunks, body, column, first + row, count, row));
        row += count;
    }
    write_column_index(indexes, &pages);
    write_offset_index(locations, &pages);
    Chunk {
        start: start as u64,
        size: (chunks.len() - start) as u64,
        rows,
        nulls: pages.iter().map(|page| page.nulls).sum(),
        ends: ends_of(column, &pages),
        index: (index as u64, (indexes.len() - index) as u32),
        locations: (place as u64, (locations.len() - place) as u32),
    }
}

fn write_schema(out: &mut Vec<u8>, column: &Column) {
    structure(out, |leaf| {
        leaf.i32(1, column.physical()).i32(3, column.is_optional().into()).binary(4, column.name().as_bytes());
    });
}

fn write_meta_data(data: &mut Fields, column: Column, chunk: &Chunk) {
    let encodings: &[u32] = if column.is_optional() { &[0, 3] } else { &[0] };
    data.i32(1, column.physical());
    data.list(2, I32, encodings, |out, code| varint(out, 2 * u64::from(*code)));
    data.list(3, BINARY, &[column.name()], |out, name| binary(out, name.as_bytes()));
    data.i32(4, 0).i64(5, chunk.rows).i64(6, chunk.size).i64(7, chunk.size).i64(9, chunk.start);
    data.structure(12, |told| {
        told.i64(3, chunk.nulls.into());
        if let Some(ends) = &chunk.ends {
            told.binary(5, &ends.greatest).binary(6, &ends.least);
        }
    });
}

fn write_footer(out: &mut Vec<u8>, rows: u64, groups: &[Group], indexes: u64, locations: u64) {
    structure(out, |footer| {
        footer.i32(1, 1);
        footer.list(2, STRUCT, &[None, Some(COLUMNS[0]), Some(COLUMNS[1]), Some(COLUMNS[2])], |out, column| match column {
            Some(column) => write_schema(out, column),
            None => structure(out, |root| {
                root.binary(4, b"schema").i32(5, 3);
            }),
        });
        footer.i64(3, rows);
        footer.list(4, STRUCT, groups, |out, group| {
            let mut columns = COLUMNS.iter();
            structure(out, |fields| {
                fields.list(1, STRUCT, &group.chunks, |out, chunk| {
                    structure(out, |fields| {
                        fields.i64(2, chunk.start);
                        fields.structure(3, |data| write_meta_data(data, *columns.next().unwrap(), chunk));
                        fields.i64(4, locations + chunk.locations.0).i32(5, chunk.locations.1);
                        fields.i64(6, indexes + chunk.index.0).i32(7, chunk.index.1);
                    })
                });
                fields.i64(2, group.chunks.iter().map(|chunk| chunk.size).sum()).i64(3, group.rows);
            })
        });
    });
}

fn sample(rows: u64, seed: u64) -> Vec<u8> {
    let mut parts = Parts { chunks: b"PAR1".to_vec(), ..Parts::default() };
    let mut groups = Vec::new();
    let mut row = 0;
    while row < rows {
        let count = GROUP_ROWS.min(rows - row);
        let chunks = COLUMNS.iter().map(|column| write_chunk(&mut parts, *column, seed + row, count)).collect();
        groups.push(Group { rows: count, chunks });
        row += count;
    }
    let mut out = parts.chunks;
    let indexes = out.len() as u64;
    out.extend_from_slice(&parts.indexes);
    let locations = out.len() as u64;
    out.extend_from_slice(&parts.locations);
    let start = out.len();
    write_footer(&mut out, rows, &groups, indexes, locations);
    let length = (out.len() - start) as u32;
    out.extend_from_slice(&length.to_le_bytes());
    out.extend_from_slice(b"PAR1");
    out
}

fn main() {
    let words: Vec<String> = std::env::args().collect();
    let bytes = sample(words[1].parse::<u32>().unwrap().into(), words[2].parse::<u32>().unwrap().into());
    let mut out = ManuallyDrop::new(unsafe { File::from_raw_fd(1) });
    out.write_all(&bytes).unwrap();
}
