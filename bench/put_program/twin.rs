// The same file in plain Rust, written to standard output: KIND ROWS PAGE_ROWS. Values are written, compared and counted in one walk over a page, and
// the ends of the chunk found from those of its pages.
use std::fs::File;
use std::io::Write;
use std::mem::ManuallyDrop;
use std::os::fd::FromRawFd;

// kinds of fields and of elements
const TRUE: u8 = 1;
const FALSE: u8 = 2;
const I32: u8 = 5;
const I64: u8 = 6;
const BINARY: u8 = 8;
const LIST: u8 = 9;
const STRUCT: u8 = 12;

fn varint(out: &mut Vec<u8>, mut n: u64) {
    while n >= 128 {
        out.push(n as u8 | 128);
        n >>= 7;
    }
    out.push(n as u8);
}

/// The fields of a struct, in rising order.
struct Fields<'a> {
    out: &'a mut Vec<u8>,
    last: u8,
}

impl<'a> Fields<'a> {
    fn new(out: &'a mut Vec<u8>) -> Self {
        Fields { out, last: 0 }
    }

    fn start(&mut self, id: u8, kind: u8) {
        self.out.push((id - self.last) << 4 | kind);
        self.last = id;
    }

    fn number(&mut self, id: u8, kind: u8, n: u64) -> &mut Self {
        self.start(id, kind);
        varint(self.out, 2 * n);
        self
    }

    fn i32(&mut self, id: u8, n: u32) -> &mut Self {
        self.number(id, I32, n.into())
    }

    fn i64(&mut self, id: u8, n: u64) -> &mut Self {
        self.number(id, I64, n)
    }

    fn binary(&mut self, id: u8, bytes: &[u8]) -> &mut Self {
        self.start(id, BINARY);
        binary(self.out, bytes);
        self
    }

    fn structure(&mut self, id: u8, fields: impl FnOnce(&mut Fields)) -> &mut Self {
        self.start(id, STRUCT);
        structure(self.out, fields);
        self
    }

    fn list<T>(&mut self, id: u8, kind: u8, items: &[T], mut write: impl FnMut(&mut Vec<u8>, &T)) -> &mut Self {
        self.start(id, LIST);
        if items.len() < 15 {
            self.out.push((items.len() as u8) << 4 | kind);
        } else {
            self.out.push(0xf0 | kind);
            varint(self.out, items.len() as u64);
        }
        for item in items {
            write(self.out, item);
        }
        self
    }
}

fn structure(out: &mut Vec<u8>, fields: impl FnOnce(&mut Fields)) {
    fields(&mut Fields::new(out));
    out.push(0);
}

fn binary(out: &mut Vec<u8>, bytes: &[u8]) {
    varint(out, bytes.len() as u64);
    out.extend_from_slice(bytes);
}

/// Truth values, eight to a byte, the lowest bit first.
struct Bitmap {
    bytes: Vec<u8>,
    length: usize,
}

impl Bitmap {
    fn with_capacity(capacity: usize) -> Self {
        Bitmap { bytes: Vec::with_capacity(capacity.div_ceil(8)), length: 0 }
    }

    fn push(&mut self, value: bool) {
        if self.length % 8 == 0 {
            self.bytes.push(value.into());
        } else {
            *self.bytes.last_mut().unwrap() |= u8::from(value) << (self.length % 8);
        }
        self.length += 1;
    }

    fn get(&self, i: usize) -> bool {
        self.bytes[i / 8] >> (i % 8) & 1 == 1
    }
}

fn is_there(validity: &Option<Bitmap>, i: usize) -> bool {
    validity.as_ref().is_none_or(|mask| mask.get(i))
}

struct NumberArray {
    values: Vec<i64>,
    validity: Option<Bitmap>,
}

struct TextArray {
    offsets: Vec<i32>,
    bytes: Vec<u8>,
    validity: Option<Bitmap>,
}

/// Items one behind another, some of which are there.
trait Array {
    const PHYSICAL: u32;

    type Item<'a>: Copy + Ord
    where
        Self: 'a;

    fn len(&self) -> usize;

    fn is_there(&self, i: usize) -> bool;

    fn get(&self, i: usize) -> Option<Self::Item<'_>>;

    fn write(body: &mut Vec<u8>, item: Self::Item<'_>);

    fn end(item: Self::Item<'_>) -> Vec<u8>;
}

impl Array for NumberArray {
    const PHYSICAL: u32 = 2;

    type Item<'a> = i64;

    fn len(&self) -> usize {
        self.values.len()
    }

    fn is_there(&self, i: usize) -> bool {
        is_there(&self.validity, i)
    }

    fn get(&self, i: usize) -> Option<i64> {
        self.is_there(i).then(|| self.values[i])
    }

    fn write(body: &mut Vec<u8>, item: i64) {
        body.extend_from_slice(&item.to_le_bytes());
    }

    fn end(item: i64) -> Vec<u8> {
        item.to_le_bytes().into()
    }
}

impl Array for TextArray {
    const PHYSICAL: u32 = 6;

    type Item<'a> = &'a [u8];

    fn len(&self) -> usize {
        self.offsets.len() - 1
    }

    fn is_there(&self, i: usize) -> bool {
        is_there(&self.validity, i)
    }

    fn get(&self, i: usize) -> Option<&[u8]> {
        self.is_there(i).then(|| &self.bytes[self.offsets[i] as usize..self.offsets[i + 1] as usize])
    }

    fn write(body: &mut Vec<u8>, item: &[u8]) {
        body.extend_from_slice(&(item.len() as u32).to_le_bytes());
        body.extend_from_slice(item);
    }

    fn end(item: &[u8]) -> Vec<u8> {
        item.into()
    }
}

/// A number in no order.
fn number_of(row: u64) -> i64 {
    row.wrapping_mul(0x9e37_79b9_7f4a_7c15) as i64
}

fn digit(number: u64) -> u8 {
    b'0' + (number % 10) as u8
}

/// `r` and seven digits, in no order.
fn text_of(row: u64) -> [u8; 8] {
    let number = row.wrapping_mul(7_654_321) % 10_000_000;
    [
        b'r',
        digit(number / 1_000_000),
        digit(number / 100_000),
        digit(number / 10_000),
        digit(number / 1000),
        digit(number / 100),
        digit(number / 10),
        digit(number),
    ]
}

/// Every fifth row is null.
fn numbers(rows: usize) -> NumberArray {
    let mut values = Vec::with_capacity(rows);
    let mut validity = Bitmap::with_capacity(rows);
    for row in 0..rows as u64 {
        let is_there = row % 5 != 0;
        values.push(if is_there { number_of(row) } else { 0 });
        validity.push(is_there);
    }
    NumberArray { values, validity: Some(validity) }
}

/// None is null.
fn texts(rows: usize) -> TextArray {
    let mut offsets = Vec::with_capacity(rows + 1);
    offsets.push(0);
    let mut bytes = Vec::new();
    for row in 0..rows as u64 {
        bytes.extend_from_slice(&text_of(row));
        offsets.push(bytes.len() as i32);
    }
    std::str::from_utf8(&bytes).unwrap();
    TextArray { offsets, bytes, validity: None }
}

struct Column {
    name: &'static str,
    physical: u32,
    is_optional: bool,
}

/// The least and the greatest item, as they are stored.
struct Ends {
    least: Vec<u8>,
    greatest: Vec<u8>,
}

struct Page {
    offset: u64,
    size: u32,
    first_row: u64,
    nulls: u32,
    ends: Option<Ends>,
}

struct Chunk {
    start: u64,
    size: u64,
    rows: u64,
    nulls: u64,
    ends: Option<Ends>,
    index: (u64, u32),
    locations: (u64, u32),
}

type Bounds<T> = Option<(T, T)>;

fn joined<T: Copy + Ord>(first: Bounds<T>, second: Bounds<T>) -> Bounds<T> {
    match (first, second) {
        (Some((least, greatest)), Some(own)) => Some((least.min(own.0), greatest.max(own.1))),
        (found, None) | (None, found) => found,
    }
}

fn ends_of<A: Array>(bounds: Bounds<A::Item<'_>>) -> Option<Ends> {
    bounds.map(|(least, greatest)| Ends { least: A::end(least), greatest: A::end(greatest) })
}

/// One packed run of bits behind its length.
fn write_levels<A: Array>(body: &mut Vec<u8>, array: &A, from: usize, to: usize) {
    let place = body.len();
    body.extend_from_slice(&[0; 4]);
    varint(body, 2 * (to - from).div_ceil(8) as u64 + 1);
    for row in (from..to).step_by(8) {
        let bits = (row..to.min(row + 8)).map(|at| u8::from(array.is_there(at)) << (at - row));
        body.push(bits.sum());
    }
    let length = (body.len() - place - 4) as u32;
    body[place..place + 4].copy_from_slice(&length.to_le_bytes());
}

/// A page. The body is room to work in.
fn write_page<'a, A: Array>(out: &mut Vec<u8>, body: &mut Vec<u8>, array: &'a A, is_optional: bool, from: usize, to: usize) -> (Page, Bounds<A::Item<'a>>) {
    body.clear();
    if is_optional {
        write_levels(body, array, from, to);
    }
    let (mut bounds, mut nulls) = (None, 0);
    for row in from..to {
        match array.get(row) {
            None => nulls += 1,
            Some(item) => {
                A::write(body, item);
                bounds = joined(bounds, Some((item, item)));
            }
        }
    }
    let start = out.len();
    let length = body.len() as u32;
    structure(out, |header| {
        header.i32(1, 0).i32(2, length).i32(3, length);
        header.structure(5, |data| {
            data.i32(1, (to - from) as u32).i32(2, 0).i32(3, 3).i32(4, 3);
        });
    });
    out.extend_from_slice(body);
    let page = Page { offset: start as u64, size: (out.len() - start) as u32, first_row: from as u64, nulls, ends: ends_of::<A>(bounds) };
    (page, bounds)
}

fn write_column_index(out: &mut Vec<u8>, pages: &[Page]) {
    structure(out, |index| {
        index.list(1, TRUE, pages, |out, page| out.push(if page.ends.is_none() { TRUE } else { FALSE }));
        index.list(2, BINARY, pages, |out, page| binary(out, page.ends.as_ref().map_or(&[], |ends| &ends.least)));
        index.list(3, BINARY, pages, |out, page| binary(out, page.ends.as_ref().map_or(&[], |ends| &ends.greatest)));
        index.i32(4, 0);
        index.list(5, I64, pages, |out, page| varint(out, 2 * u64::from(page.nulls)));
    });
}

fn write_offset_index(out: &mut Vec<u8>, pages: &[Page]) {
    structure(out, |index| {
        index.list(1, STRUCT, pages, |out, page| {
            structure(out, |location| {
                location.i64(1, page.offset).i32(2, page.size).i64(3, page.first_row);
            })
        });
    });
}

#[derive(Default)]
struct Parts {
    chunks: Vec<u8>,
    indexes: Vec<u8>,
    locations: Vec<u8>,
    body: Vec<u8>,
}

fn write_chunk<A: Array>(parts: &mut Parts, column: &Column, array: &A, page_rows: usize) -> Chunk {
    let Parts { chunks, indexes, locations, body } = parts;
    let (start, index, place) = (chunks.len(), indexes.len(), locations.len());
    let (mut pages, mut bounds) = (Vec::new(), None);
    let (mut row, rows) = (0, array.len());
    while row < rows {
        let to = rows.min(row + page_rows);
        let (page, own) = write_page(chunks, body, array, column.is_optional, row, to);
        pages.push(page);
        bounds = joined(bounds, own);
        row = to;
    }
    write_column_index(indexes, &pages);
    write_offset_index(locations, &pages);
    Chunk {
        start: start as u64,
        size: (chunks.len() - start) as u64,
        rows: rows as u64,
        nulls: pages.iter().map(|page| u64::from(page.nulls)).sum(),
        ends: ends_of::<A>(bounds),
        index: (index as u64, (indexes.len() - index) as u32),
        locations: (place as u64, (locations.len() - place) as u32),
    }
}

fn write_schema(out: &mut Vec<u8>, column: &Column) {
    structure(out, |leaf| {
        leaf.i32(1, column.physical).i32(3, column.is_optional.into()).binary(4, column.name.as_bytes());
    });
}

fn write_meta_data(data: &mut Fields, column: &Column, chunk: &Chunk) {
    let encodings: &[u32] = if column.is_optional { &[0, 3] } else { &[0] };
    data.i32(1, column.physical);
    data.list(2, I32, encodings, |out, code| varint(out, 2 * u64::from(*code)));
    data.list(3, BINARY, &[column.name], |out, name| binary(out, name.as_bytes()));
    data.i32(4, 0).i64(5, chunk.rows).i64(6, chunk.size).i64(7, chunk.size).i64(9, chunk.start);
    data.structure(12, |told| {
        told.i64(3, chunk.nulls);
        if let Some(ends) = &chunk.ends {
            told.binary(5, &ends.greatest).binary(6, &ends.least);
        }
    });
}

fn write_footer(out: &mut Vec<u8>, column: &Column, chunk: &Chunk, indexes: u64, locations: u64) {
    structure(out, |footer| {
        footer.i32(1, 1);
        footer.list(2, STRUCT, &[None, Some(column)], |out, column| match column {
            Some(column) => write_schema(out, column),
            None => structure(out, |root| {
                root.binary(4, b"schema").i32(5, 1);
            }),
        });
        footer.i64(3, chunk.rows);
        footer.list(4, STRUCT, &[chunk], |out, chunk| {
            structure(out, |group| {
                group.list(1, STRUCT, &[chunk], |out, chunk| {
                    structure(out, |fields| {
                        fields.i64(2, chunk.start);
                        fields.structure(3, |data| write_meta_data(data, column, chunk));
                        fields.i64(4, locations + chunk.locations.0).i32(5, chunk.locations.1);
                        fields.i64(6, indexes + chunk.index.0).i32(7, chunk.index.1);
                    })
                });
                group.i64(2, chunk.size).i64(3, chunk.rows);
            })
        });
    });
}

/// The file of one column and one group.
fn put<A: Array>(array: &A, is_optional: bool, page_rows: usize) -> Vec<u8> {
    if page_rows == 0 {
        return Vec::new();
    }
    let column = Column { name: "column", physical: A::PHYSICAL, is_optional };
    let mut parts = Parts { chunks: b"PAR1".to_vec(), ..Parts::default() };
    let chunk = write_chunk(&mut parts, &column, array, page_rows);
    let mut out = parts.chunks;
    let indexes = out.len() as u64;
    out.extend_from_slice(&parts.indexes);
    let locations = out.len() as u64;
    out.extend_from_slice(&parts.locations);
    let start = out.len();
    write_footer(&mut out, &column, &chunk, indexes, locations);
    let length = (out.len() - start) as u32;
    out.extend_from_slice(&length.to_le_bytes());
    out.extend_from_slice(b"PAR1");
    out
}

fn main() {
    let words: Vec<String> = std::env::args().collect();
    let (rows, page_rows) = (words[2].parse().unwrap(), words[3].parse().unwrap());
    let bytes = if words[1] == "texts" { put(&texts(rows), false, page_rows) } else { put(&numbers(rows), true, page_rows) };
    let mut out = ManuallyDrop::new(unsafe { File::from_raw_fd(1) });
    out.write_all(&bytes).unwrap();
}
