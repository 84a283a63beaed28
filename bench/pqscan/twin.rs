//! `twin FILE ITEM.. [--limit N] [--chunk N] [--summary] [--no-print]`: a pruned flat Parquet scan in plain Rust, by the standard
//! library alone. It reads uncompressed files with pages of the first form of INT32, INT64 and BYTE_ARRAY columns, required or optional,
//! plain, with dictionaries or, for texts and bytes, joined behind their lengths, prunes by statistics and page indexes, and writes what
//! `pqscan` writes. Timestamps come in milliseconds, and keys of texts as texts or as a dictionary array.
//! `twin --copy FILE` reads a file part by part and keeps a copy of it in memory: about the least that a scan of all of it has to do.

use std::fs::File;
use std::io::Write;
use std::os::fd::FromRawFd;
use std::os::unix::fs::FileExt;

include!("../formats.rs");

#[derive(Debug, Clone, Copy, PartialEq)]
enum Error {
    Words,
    Argument,
    NotCarried,
    Damaged,
    NotValid,
    Range,
    Reading,
    Writing,
}

type Result<T> = std::result::Result<T, Error>;

// ---------------------------------------------------------------- Thrift compact

struct Compact<'a> {
    bytes: &'a [u8],
    at: usize,
}

impl<'a> Compact<'a> {
    fn new(bytes: &'a [u8]) -> Self {
        Compact { bytes, at: 0 }
    }

    fn byte(&mut self) -> Result<u8> {
        let b = *self.bytes.get(self.at).ok_or(Error::Damaged)?;
        self.at += 1;
        Ok(b)
    }

    fn varint(&mut self) -> Result<u64> {
        let mut n = 0u64;
        for i in 0..10 {
            let b = self.byte()?;
            if i == 9 && b > 1 {
                return Err(Error::Damaged);
            }
            n |= ((b & 0x7F) as u64) << (7 * i);
            if b < 0x80 {
                return Ok(n);
            }
        }
        Err(Error::Damaged)
    }

    fn i64(&mut self) -> Result<i64> {
        Ok(zigzag(self.varint()?))
    }

    fn i32(&mut self) -> Result<i32> {
        i32::try_from(self.i64()?).map_err(|_| Error::Damaged)
    }

    fn binary(&mut self) -> Result<&'a [u8]> {
        let n = self.varint()?;
        if n > (self.bytes.len() - self.at) as u64 {
            return Err(Error::Damaged);
        }
        let b = &self.bytes[self.at..self.at + n as usize];
        self.at += n as usize;
        Ok(b)
    }

    fn list(&mut self) -> Result<(usize, u8)> {
        let b = self.byte()?;
        let n = match b >> 4 {
            15 => self.varint()?,
            n => n as u64,
        };
        if n > (self.bytes.len() - self.at) as u64 {
            return Err(Error::Damaged);
        }
        Ok((n as usize, b & 15))
    }

    fn field(&mut self, last: &mut i16) -> Result<Option<(i16, u8)>> {
        let b = self.byte()?;
        if b == 0 {
            return Ok(None);
        }
        let id = match b >> 4 {
            0 => i16::try_from(self.i64()?).map_err(|_| Error::Damaged)?,
            step => last.checked_add(step as i16).ok_or(Error::Damaged)?,
        };
        *last = id;
        Ok(Some((id, b & 15)))
    }

    fn skip(&mut self, kind: u8, depth: usize) -> Result<()> {
        if depth > 32 {
            return Err(Error::Damaged);
        }
        match kind {
            1 | 2 => {}
            3 => {
                self.byte()?;
            }
            4..=6 => {
                self.varint()?;
            }
            7 => {
                for _ in 0..8 {
                    self.byte()?;
                }
            }
            8 => {
                self.binary()?;
            }
            9 | 10 => {
                let (n, kind) = self.list()?;
                for _ in 0..n {
                    self.skip(if kind < 3 { 3 } else { kind }, depth + 1)?;
                }
            }
            11 => {
                let n = self.varint()?;
                if n > 0 {
                    let kinds = self.byte()?;
                    for _ in 0..n {
                        for kind in [kinds >> 4, kinds & 15] {
                            self.skip(if kind < 3 { 3 } else { kind }, depth + 1)?;
                        }
                    }
                }
            }
            12 => {
                let mut last = 0;
                while let Some((_, kind)) = self.field(&mut last)? {
                    self.skip(kind, depth + 1)?;
                }
            }
            _ => return Err(Error::Damaged),
        }
        Ok(())
    }

    /// Calls `f` on each field of a struct; `f` answers false for an id that it does not know.
    fn fields(&mut self, mut f: impl FnMut(&mut Self, i16, u8) -> Result<bool>) -> Result<()> {
        let mut last = 0;
        while let Some((id, kind)) = self.field(&mut last)? {
            if !f(self, id, kind)? {
                self.skip(kind, 1)?;
            }
        }
        Ok(())
    }
}

fn want(kind: u8, wanted: u8) -> Result<()> {
    if kind == wanted { Ok(()) } else { Err(Error::Damaged) }
}

// ---------------------------------------------------------------- metadata

#[derive(Clone, Copy, PartialEq, Debug)]
enum Physical {
    Int32,
    Int64,
    ByteArray,
    Other,
}

struct Column {
    name: String,
    physical: Physical,
    /// How many of its time steps a second has, of a column of timestamps.
    steps: Option<i64>,
    optional: bool,
    repeated: bool,
}

#[derive(Default)]
struct Stats {
    nulls: Option<i64>,
    max: Option<Vec<u8>>,
    min: Option<Vec<u8>>,
}

#[derive(Default)]
struct ChunkMeta {
    codec: i32,
    num_values: u64,
    size: u64,
    data_offset: u64,
    dict_offset: Option<u64>,
    stats: Option<Stats>,
    offset_index: Option<(u64, u64)>,
    column_index: Option<(u64, u64)>,
    foreign: bool,
}

impl ChunkMeta {
    fn start(&self) -> u64 {
        match self.dict_offset {
            Some(d) if d > 0 && d < self.data_offset => d,
            _ => self.data_offset,
        }
    }
}

struct Group {
    chunks: Vec<ChunkMeta>,
    rows: usize,
}

struct Meta {
    columns: Vec<Column>,
    groups: Vec<Group>,
}

fn natural(n: i64) -> Result<u64> {
    u64::try_from(n).map_err(|_| Error::Damaged)
}

fn parse_stats(c: &mut Compact) -> Result<Stats> {
    let mut s = Stats::default();
    c.fields(|c, id, kind| {
        match id {
            3 => {
                want(kind, 6)?;
                s.nulls = Some(c.i64()?);
            }
            5 => {
                want(kind, 8)?;
                s.max = Some(c.binary()?.to_vec());
            }
            6 => {
                want(kind, 8)?;
                s.min = Some(c.binary()?.to_vec());
            }
            _ => return Ok(false),
        }
        Ok(true)
    })?;
    Ok(s)
}

fn parse_chunk(c: &mut Compact) -> Result<ChunkMeta> {
    let mut m = ChunkMeta::default();
    let (mut oi, mut ol, mut ci, mut cl) = (None, None, None, None);
    c.fields(|c, id, kind| {
        match id {
            1 => {
                want(kind, 8)?;
                m.foreign = !c.binary()?.is_empty();
            }
            3 => {
                want(kind, 12)?;
                c.fields(|c, id, kind| {
                    match (id, kind) {
                        (4, 5) => m.codec = c.i32()?,
                        (5, 6) => m.num_values = natural(c.i64()?)?,
                        (7, 6) => m.size = natural(c.i64()?)?,
                        (9, 6) => m.data_offset = natural(c.i64()?)?,
                        (11, 6) => m.dict_offset = Some(natural(c.i64()?)?),
                        (12, 12) => m.stats = Some(parse_stats(c)?),
                        _ => return Ok(false),
                    }
                    Ok(true)
                })?;
            }
            4 => oi = Some(natural(c.i64()?)?),
            5 => ol = Some(natural(c.i64()?)?),
            6 => ci = Some(natural(c.i64()?)?),
            7 => cl = Some(natural(c.i64()?)?),
            _ => return Ok(false),
        }
        Ok(true)
    })?;
    m.offset_index = oi.zip(ol);
    m.column_index = ci.zip(cl);
    Ok(m)
}

/// How many steps a second has of the unit that a logical type names, if it is that of timestamps.
fn parse_steps(c: &mut Compact) -> Result<Option<i64>> {
    let mut steps = None;
    c.fields(|c, id, _| {
        if id != 8 {
            return Ok(false);
        }
        c.fields(|c, id, _| {
            if id != 2 {
                return Ok(false);
            }
            c.fields(|_, id, _| {
                steps = match id {
                    1 => Some(1_000),
                    2 => Some(1_000_000),
                    3 => Some(1_000_000_000),
                    _ => None,
                };
                Ok(false)
            })?;
            Ok(true)
        })?;
        Ok(true)
    })?;
    Ok(steps)
}

fn parse_meta(bytes: &[u8]) -> Result<Meta> {
    let mut columns = Vec::new();
    let mut groups = Vec::new();
    let mut c = Compact::new(bytes);
    c.fields(|c, id, kind| {
        match id {
            2 => {
                want(kind, 9)?;
                let (n, _) = c.list()?;
                for i in 0..n {
                    let mut physical = None;
                    let mut repetition = 0;
                    let mut name = String::new();
                    let mut steps = None;
                    c.fields(|c, id, _| {
                        match id {
                            1 => {
                                physical = Some(match c.i32()? {
                                    1 => Physical::Int32,
                                    2 => Physical::Int64,
                                    6 => Physical::ByteArray,
                                    _ => Physical::Other,
                                })
                            }
                            3 => repetition = c.i32()?,
                            4 => {
                                name = String::from_utf8(c.binary()?.to_vec())
                                    .map_err(|_| Error::Damaged)?
                            }
                            10 => steps = parse_steps(c)?,
                            _ => return Ok(false),
                        }
                        Ok(true)
                    })?;
                    if i == 0 {
                        continue;
                    }
                    let physical = physical.ok_or(Error::NotCarried)?;
                    columns.push(Column {
                        name,
                        physical,
                        steps,
                        optional: repetition == 1,
                        repeated: repetition == 2,
                    });
                }
            }
            4 => {
                want(kind, 9)?;
                let (n, _) = c.list()?;
                for _ in 0..n {
                    let mut chunks = Vec::new();
                    let mut rows = 0;
                    c.fields(|c, id, _| {
                        match id {
                            1 => {
                                let (n, _) = c.list()?;
                                for _ in 0..n {
                                    chunks.push(parse_chunk(c)?);
                                }
                            }
                            3 => rows = natural(c.i64()?)? as usize,
                            _ => return Ok(false),
                        }
                        Ok(true)
                    })?;
                    groups.push(Group { chunks, rows });
                }
            }
            _ => return Ok(false),
        }
        Ok(true)
    })?;
    if groups.iter().any(|g| g.chunks.len() != columns.len()) {
        return Err(Error::Damaged);
    }
    Ok(Meta { columns, groups })
}

struct Input {
    file: File,
    size: u64,
}

impl Input {
    fn open(path: &str) -> Result<Self> {
        let file = File::open(path).map_err(|_| Error::Reading)?;
        let size = file.metadata().map_err(|_| Error::Reading)?.len();
        Ok(Input { file, size })
    }

    fn read(&self, at: u64, length: u64) -> Result<Vec<u8>> {
        let mut bytes = Vec::new();
        self.read_to(&mut bytes, at, length)?;
        Ok(bytes)
    }

    /// Reads in the place of what a buffer holds, so that its memory is taken once.
    fn read_to(&self, bytes: &mut Vec<u8>, at: u64, length: u64) -> Result<()> {
        if at.checked_add(length).is_none_or(|end| end > self.size) {
            return Err(Error::Damaged);
        }
        bytes.resize(length as usize, 0);
        self.file.read_exact_at(bytes, at).map_err(|_| Error::Reading)
    }

    fn meta(&self) -> Result<Meta> {
        if self.size < 12 {
            return Err(Error::Damaged);
        }
        let end = self.read(self.size - 8, 8)?;
        if &end[4..] != b"PAR1" {
            return Err(Error::Damaged);
        }
        let length = u32::from_le_bytes(end[..4].try_into().unwrap()) as u64;
        if length > self.size - 8 {
            return Err(Error::Damaged);
        }
        parse_meta(&self.read(self.size - 8 - length, length)?)
    }
}

// ---------------------------------------------------------------- the request

#[derive(Clone, Copy, PartialEq)]
enum Type {
    Int32,
    Int64,
    Milliseconds,
    Utf8,
    Binary,
    /// Keys of texts.
    Named,
}

#[derive(Clone, PartialEq)]
enum Scalar {
    Int(i64),
    Bytes(Vec<u8>),
}

impl Scalar {
    fn above(&self, other: &Scalar) -> bool {
        match (self, other) {
            (Scalar::Int(a), Scalar::Int(b)) => a > b,
            (Scalar::Bytes(a), Scalar::Bytes(b)) => a > b,
            _ => false,
        }
    }
}

struct Field {
    name: String,
    kind: Type,
    low: Option<Scalar>,
    high: Option<Scalar>,
}

impl Field {
    fn bounded(&self) -> bool {
        self.low.is_some() || self.high.is_some()
    }

    fn keeps(&self, min: Option<Scalar>, max: Option<Scalar>, nulls: Option<u64>, rows: u64) -> bool {
        if rows == 0 || nulls.is_some_and(|n| n >= rows) {
            return false;
        }
        for low in [&min, &self.low].into_iter().flatten() {
            for high in [&max, &self.high].into_iter().flatten() {
                if low.above(high) {
                    return false;
                }
            }
        }
        true
    }

    fn end(&self, physical: Physical, bytes: &[u8]) -> Result<Scalar> {
        Ok(match physical {
            Physical::Int32 => {
                Scalar::Int(i32::from_le_bytes(bytes.try_into().map_err(|_| Error::Damaged)?) as i64)
            }
            Physical::Int64 => {
                Scalar::Int(i64::from_le_bytes(bytes.try_into().map_err(|_| Error::Damaged)?))
            }
            _ => {
                if self.kind == Type::Utf8 {
                    std::str::from_utf8(bytes).map_err(|_| Error::NotValid)?;
                }
                Scalar::Bytes(bytes.to_vec())
            }
        })
    }
}

struct Request {
    file: String,
    fields: Vec<Field>,
    chunk: Option<usize>,
    limit: Option<usize>,
    summary: bool,
    print: bool,
}

fn number(word: &str) -> Result<usize> {
    if word.is_empty() || word.len() > 20 || !word.bytes().all(|b| b.is_ascii_digit()) {
        return Err(Error::Words);
    }
    word.parse().map_err(|_| Error::Words)
}

fn request(words: &[String]) -> Result<Request> {
    let mut r = Request {
        file: words.first().ok_or(Error::Words)?.clone(),
        fields: Vec::new(),
        chunk: None,
        limit: None,
        summary: false,
        print: true,
    };
    let mut bounds = Vec::new();
    let mut rest = words[1..].iter();
    while let Some(word) = rest.next() {
        match word.as_str() {
            "--chunk" => r.chunk = Some(number(rest.next().ok_or(Error::Words)?)?),
            "--limit" => r.limit = Some(number(rest.next().ok_or(Error::Words)?)?),
            "--summary" => r.summary = true,
            "--no-print" => (r.summary, r.print) = (true, false),
            word if word.starts_with("--") => return Err(Error::Words),
            word => {
                let at = [word.find(">="), word.find("<=")].into_iter().flatten().min();
                if let Some(at) = at {
                    bounds.push((&word[..at], word.as_bytes()[at] == b'>', &word[at + 2..]));
                } else {
                    let (name, kind) = word.rsplit_once(':').ok_or(Error::Words)?;
                    let kind = match kind {
                        "Int32" => Type::Int32,
                        "Int64" => Type::Int64,
                        "Timestamp(ms)" => Type::Milliseconds,
                        "Utf8" => Type::Utf8,
                        "Binary" => Type::Binary,
                        "Dictionary(Int32,Utf8)" => Type::Named,
                        _ => return Err(Error::Words),
                    };
                    let name = name.to_string();
                    r.fields.push(Field { name, kind, low: None, high: None });
                }
            }
        }
    }
    for (name, is_low, value) in bounds {
        let field = r.fields.iter_mut().find(|f| f.name == name).ok_or(Error::Words)?;
        let value = match field.kind {
            Type::Utf8 => Scalar::Bytes(value.as_bytes().to_vec()),
            Type::Binary | Type::Milliseconds | Type::Named => return Err(Error::Words),
            Type::Int32 => Scalar::Int(value.parse::<i32>().map_err(|_| Error::Words)? as i64),
            Type::Int64 => Scalar::Int(value.parse::<i64>().map_err(|_| Error::Words)?),
        };
        let side = if is_low { &mut field.low } else { &mut field.high };
        if side.replace(value).is_some() {
            return Err(Error::Words);
        }
    }
    Ok(r)
}

// ---------------------------------------------------------------- pages

type Interval = (usize, usize); // start, length

struct PageHeader {
    kind: i32,
    size: usize,
    num_values: usize,
    encoding: i32,
    level_encoding: i32,
}

fn page_header(c: &mut Compact) -> Result<PageHeader> {
    let mut h = PageHeader { kind: -1, size: 0, num_values: 0, encoding: -1, level_encoding: 3 };
    c.fields(|c, id, _| {
        match id {
            1 => h.kind = c.i32()?,
            3 => h.size = usize::try_from(c.i32()?).map_err(|_| Error::Damaged)?,
            5 | 7 => c.fields(|c, id, _| {
                match id {
                    1 => h.num_values = usize::try_from(c.i32()?).map_err(|_| Error::Damaged)?,
                    2 => h.encoding = c.i32()?,
                    3 => h.level_encoding = c.i32()?,
                    _ => return Ok(false),
                }
                Ok(true)
            })?,
            _ => return Ok(false),
        }
        Ok(true)
    })?;
    Ok(h)
}

#[derive(Default)]
struct Bitmap {
    bytes: Vec<u8>,
    len: usize,
}

impl Bitmap {
    fn push(&mut self, bit: bool) {
        if self.len % 8 == 0 {
            self.bytes.push(0);
        }
        if bit {
            *self.bytes.last_mut().unwrap() |= 1 << (self.len % 8);
        }
        self.len += 1;
    }

    fn get(&self, i: usize) -> bool {
        self.bytes[i / 8] >> (i % 8) & 1 == 1
    }
}

enum Values {
    Int32(Vec<i32>),
    Int64(Vec<i64>),
    Bytes { offsets: Vec<i32>, data: Vec<u8>, text: bool },
    /// Keys of the texts that stand between these places.
    Named { keys: Vec<i32>, offsets: Vec<i32>, data: Vec<u8> },
}

struct Array {
    values: Values,
    validity: Option<Bitmap>,
}

/// The dictionary of a chunk.
enum Dict {
    Int32(Vec<i32>),
    Int64(Vec<i64>),
    Bytes { offsets: Vec<i32>, data: Vec<u8> },
}

/// Calls `f` on each run of the hybrid stream: (value, count) or packed groups.
enum Run<'a> {
    Same(u32, usize),
    Packed(&'a [u8], usize),
}

fn hybrid<'a>(
    bytes: &'a [u8],
    width: u32,
    count: usize,
    mut f: impl FnMut(Run<'a>) -> Result<()>,
) -> Result<()> {
    if width == 0 {
        return f(Run::Same(0, count));
    }
    if width > 32 {
        return Err(Error::Damaged);
    }
    let mut c = Compact::new(bytes);
    let mut left = count;
    while left > 0 {
        let header = c.varint()?;
        if header & 1 == 0 {
            let mut value = 0u32;
            for i in 0..width.div_ceil(8) {
                value |= (c.byte()? as u32) << (8 * i);
            }
            let n = ((header >> 1) as usize).min(left);
            if n > 0 {
                f(Run::Same(value, n))?;
            }
            left -= n;
        } else {
            let groups = header >> 1;
            let rest = &bytes[c.at..];
            let length = groups.saturating_mul(width as u64).min(rest.len() as u64) as usize;
            let n = (length * 8 / width as usize).min(left);
            if n == 0 && length as u64 != groups * width as u64 {
                return Err(Error::Damaged);
            }
            if n > 0 {
                f(Run::Packed(&rest[..length], n))?;
            }
            left -= n;
            c.at += length;
        }
    }
    Ok(())
}

/// The bits of a byte, one byte each, from the lowest.
static SPREAD: [[u8; 8]; 256] = {
    let mut t = [[0; 8]; 256];
    let mut i = 0;
    while i < 2048 {
        t[i / 8][i % 8] = (i / 8 >> (i % 8)) as u8 & 1;
        i += 1;
    }
    t
};

/// The validity of a page's rows, one byte (0 or 1) a row.
fn levels(bytes: &[u8], count: usize) -> Result<(Vec<u8>, usize)> {
    let mut out = Vec::with_capacity(count);
    hybrid(bytes, 1, count, |run| {
        match run {
            Run::Same(v, n) => {
                if v > 1 {
                    return Err(Error::Damaged);
                }
                out.resize(out.len() + n, v as u8);
            }
            Run::Packed(bytes, n) => {
                let end = out.len() + n;
                for b in &bytes[..n.div_ceil(8)] {
                    out.extend_from_slice(&SPREAD[*b as usize]);
                }
                out.truncate(end);
            }
        }
        Ok(())
    })?;
    let present = out.iter().map(|b| *b as usize).sum();
    Ok((out, present))
}

/// The stored values of a page, before selection.
enum Stored<'a> {
    Plain(&'a [u8]),
    Joined(&'a [u8]),
    Keys(&'a [u8], u32),
}

fn decode_keys(bytes: &[u8], width: u32, count: usize, entries: usize) -> Result<Vec<u32>> {
    let mut keys = vec![0; count];
    let mut done = 0;
    hybrid(bytes, width, count, |run| {
        match run {
            Run::Same(key, n) => {
                keys[done..done + n].fill(key);
                done += n;
            }
            Run::Packed(bytes, n) => {
                unpack(bytes, width as usize, &mut keys[done..done + n]);
                done += n;
            }
        }
        Ok(())
    })?;
    if count > 0 && keys.iter().fold(0, |most, key| most.max(*key)) as usize >= entries {
        return Err(Error::NotValid);
    }
    Ok(keys)
}

/// The number in `width` bits from a bit on.
fn wide(bytes: &[u8], bit: usize, width: usize) -> u64 {
    let low = word_at(bytes, bit / 8) >> (bit % 8);
    let value = if bit % 8 + width > 64 { low | word_at(bytes, bit / 8 + 8) << (64 - bit % 8) } else { low };
    if width == 64 { value } else { value & ((1 << width) - 1) }
}

/// The numbers of a delta-packed list, and where it ends.
fn delta(bytes: &[u8], count: usize) -> Option<(Vec<i64>, usize)> {
    let mut place = 0;
    let block = varint(bytes, &mut place)? as usize;
    let parts = varint(bytes, &mut place)? as usize;
    let total = varint(bytes, &mut place)? as usize;
    let mut value = zigzag(varint(bytes, &mut place)?);
    if total != count || block == 0 || block % 128 != 0 || parts == 0 || block % parts != 0 || block / parts % 32 != 0 {
        return None;
    }
    let size = block / parts;
    let mut values = Vec::with_capacity(count.max(1));
    values.push(value);
    while values.len() < count {
        let least = zigzag(varint(bytes, &mut place)?);
        let widths = bytes.get(place..place.checked_add(parts)?)?;
        place += parts;
        for width in widths {
            let length = size.min(count - values.len());
            if length == 0 {
                break;
            }
            let width = usize::from(*width);
            if width > 64 {
                return None;
            }
            let body = bytes.get(place..place.checked_add(size.checked_mul(width)? / 8)?)?;
            place += body.len();
            values.extend((0..length).map(|i| {
                let step = if width == 0 { 0 } else { wide(body, i * width, width) };
                value = value.wrapping_add(least).wrapping_add(step as i64);
                value
            }));
        }
    }
    values.truncate(count);
    Some((values, place))
}

trait Native: Copy + Default {
    const SIZE: usize;
    fn from_le(bytes: &[u8]) -> Self;
}

impl Native for i32 {
    const SIZE: usize = 4;
    fn from_le(bytes: &[u8]) -> Self {
        i32::from_le_bytes(bytes.try_into().unwrap())
    }
}

impl Native for i64 {
    const SIZE: usize = 8;
    fn from_le(bytes: &[u8]) -> Self {
        i64::from_le_bytes(bytes.try_into().unwrap())
    }
}

fn plain<'a, T: Native + 'a>(bytes: &'a [u8]) -> impl Iterator<Item = T> + 'a {
    bytes.chunks_exact(T::SIZE).map(T::from_le)
}

/// Appends the selected rows of a page of numbers.
fn extend_numbers<T: Native>(
    out: &mut Vec<T>,
    validity: Option<&mut Bitmap>,
    level: Option<&[u8]>,
    present: usize,
    stored: &Stored,
    dict: Option<&Vec<T>>,
    selected: &[Interval],
) -> Result<()> {
    let keys;
    let looked_up: Vec<T>;
    let bytes = match stored {
        Stored::Plain(bytes) => {
            if bytes.len() != present * T::SIZE {
                return Err(Error::Damaged);
            }
            Some(*bytes)
        }
        Stored::Joined(_) => return Err(Error::NotCarried),
        Stored::Keys(bytes, width) => {
            let dict = dict.ok_or(Error::NotCarried)?;
            keys = decode_keys(bytes, *width, present, dict.len())?;
            looked_up = keys.iter().map(|k| dict[*k as usize]).collect();
            match level {
                None => {
                    for (start, length) in selected {
                        out.extend_from_slice(&looked_up[*start..start + length]);
                    }
                    return Ok(());
                }
                Some(level) => {
                    spread(out, validity.unwrap(), level, selected, looked_up.iter().copied());
                    return Ok(());
                }
            }
        }
    };
    let bytes = bytes.unwrap();
    match level {
        None => {
            for (start, length) in selected {
                out.extend(plain::<T>(&bytes[start * T::SIZE..(start + length) * T::SIZE]));
            }
        }
        Some(level) => spread(out, validity.unwrap(), level, selected, plain::<T>(bytes)),
    }
    Ok(())
}

/// Appends the keys of the selected rows of a page of keys.
fn extend_keys(
    out: &mut Vec<i32>,
    validity: Option<&mut Bitmap>,
    level: Option<&[u8]>,
    present: usize,
    stored: &Stored,
    entries: usize,
    selected: &[Interval],
) -> Result<()> {
    let keys = match stored {
        Stored::Keys(bytes, width) => decode_keys(bytes, *width, present, entries)?,
        Stored::Plain([]) => Vec::new(),
        _ => return Err(Error::NotCarried),
    };
    match level {
        None => {
            for (start, length) in selected {
                out.extend(keys[*start..start + length].iter().map(|key| *key as i32));
            }
        }
        Some(level) => {
            spread(out, validity.unwrap(), level, selected, keys.iter().map(|key| *key as i32));
        }
    }
    Ok(())
}

/// Makes milliseconds of times of which a second has so many.
fn to_milliseconds(times: &mut [i64], steps: Option<i64>) {
    match steps {
        Some(1_000_000) => times.iter_mut().for_each(|time| *time /= 1_000),
        Some(1_000_000_000) => times.iter_mut().for_each(|time| *time /= 1_000_000),
        _ => {}
    }
}

/// Puts the present values at their rows, and 0 elsewhere.
fn spread<T: Native>(
    out: &mut Vec<T>,
    validity: &mut Bitmap,
    level: &[u8],
    selected: &[Interval],
    mut values: impl Iterator<Item = T>,
) {
    let mut at = 0;
    for (start, length) in selected {
        let passed: usize = level[at..*start].iter().map(|b| *b as usize).sum();
        if passed > 0 {
            values.nth(passed - 1);
        }
        at = start + length;
        out.reserve(*length);
        for l in &level[*start..at] {
            out.push(if *l == 1 { values.next().unwrap_or_default() } else { T::default() });
        }
        extend_validity(validity, &level[*start..at]);
    }
}

fn extend_validity(validity: &mut Bitmap, mut level: &[u8]) {
    while validity.len % 8 != 0 {
        let Some((first, rest)) = level.split_first() else { return };
        validity.push(*first == 1);
        level = rest;
    }
    let (whole, rest) = level.as_chunks::<8>();
    validity.bytes.extend(whole.iter().map(|w| {
        (u64::from_le_bytes(*w).wrapping_mul(0x0102_0408_1020_4080) >> 56) as u8
    }));
    validity.len += whole.len() * 8;
    for l in rest {
        validity.push(*l == 1);
    }
}

/// The byte strings of a page that are still to come.
enum Strings<'a> {
    Plain(&'a [u8]),
    Joined { lengths: &'a [i64], bytes: &'a [u8] },
    Named { keys: &'a [u32], ends: &'a [i32], entries: &'a [u8] },
}

fn next_plain<'a>(rest: &mut &'a [u8]) -> Result<&'a [u8]> {
    let (head, tail) = rest.split_first_chunk::<4>().ok_or(Error::Damaged)?;
    let (item, tail) = tail.split_at_checked(u32::from_le_bytes(*head) as usize).ok_or(Error::Damaged)?;
    *rest = tail;
    Ok(item)
}

/// The lengths of `count` byte strings, and their bytes, joined.
fn joined(bytes: &[u8], count: usize) -> Result<(Vec<i64>, &[u8])> {
    let (lengths, end) = delta(bytes, count).ok_or(Error::Damaged)?;
    let mut room = bytes.len() - end;
    for length in &lengths {
        let length = u32::try_from(*length).map_err(|_| Error::Damaged)? as usize;
        room = room.checked_sub(length).ok_or(Error::Damaged)?;
    }
    if lengths.iter().any(|length| *length > i64::from(i32::MAX)) {
        return Err(Error::Damaged);
    }
    Ok((lengths, &bytes[end..]))
}

impl Strings<'_> {
    /// Appends the next strings, and where each of them ends.
    fn take(&mut self, count: usize, data: &mut Vec<u8>, ends: &mut Vec<i32>) -> Result<()> {
        match self {
            Strings::Plain(rest) => {
                let count = count.min(rest.len() / 4 + 1);
                data.reserve(rest.len().saturating_sub(4 * count));
                ends.reserve(count);
                for _ in 0..count {
                    data.extend_from_slice(next_plain(rest)?);
                    ends.push(data.len() as i32);
                }
            }
            Strings::Joined { lengths, bytes } => {
                let (now, later) = lengths.split_at(count);
                let held = data.len();
                let mut end = held;
                ends.extend(now.iter().map(|length| {
                    end += *length as usize;
                    end as i32
                }));
                data.extend_from_slice(&bytes[..end - held]);
                (*lengths, *bytes) = (later, &bytes[end - held..]);
            }
            Strings::Named { keys, ends: places, entries } => {
                let (now, later) = keys.split_at(count);
                ends.reserve(count);
                for key in now {
                    let key = *key as usize;
                    data.extend_from_slice(&entries[places[key] as usize..places[key + 1] as usize]);
                    ends.push(data.len() as i32);
                }
                *keys = later;
            }
        }
        i32::try_from(data.len()).map_err(|_| Error::Range)?;
        Ok(())
    }

    fn skip(&mut self, count: usize) -> Result<()> {
        match self {
            Strings::Plain(rest) => {
                for _ in 0..count {
                    next_plain(rest)?;
                }
            }
            Strings::Joined { lengths, bytes } => {
                let (now, later) = lengths.split_at(count);
                let passed: i64 = now.iter().sum();
                (*lengths, *bytes) = (later, &bytes[passed as usize..]);
            }
            Strings::Named { keys, .. } => *keys = &keys[count..],
        }
        Ok(())
    }

    /// Plain strings leave nothing behind the last.
    fn end(self) -> Result<()> {
        match self {
            Strings::Plain(rest) if !rest.is_empty() => Err(Error::Damaged),
            _ => Ok(()),
        }
    }
}

/// Whether the strings that begin at these places and fill the bytes from the first of them on are texts: all of them together are,
/// and none begins inside a character.
fn check_texts(data: &[u8], places: &[i32]) -> Result<()> {
    let from = places[0] as usize;
    let added = &data[from..];
    if added.is_ascii() {
        return Ok(());
    }
    let text = std::str::from_utf8(added).map_err(|_| Error::NotValid)?;
    match places.iter().all(|place| text.is_char_boundary(*place as usize - from)) {
        true => Ok(()),
        false => Err(Error::NotValid),
    }
}

fn count_present(level: Option<&[u8]>, from: usize, to: usize) -> usize {
    level.map_or(to - from, |level| level[from..to].iter().map(|l| *l as usize).sum())
}

/// Appends the strings of the selected rows, and where each row ends; a null ends where it begins.
fn extend_selected(
    mut strings: Strings,
    (offsets, data): (&mut Vec<i32>, &mut Vec<u8>),
    level: Option<&[u8]>,
    selected: &[Interval],
    rows: usize,
) -> Result<()> {
    let mut ends = Vec::new();
    let mut at = 0;
    for (start, length) in selected {
        strings.skip(count_present(level, at, *start))?;
        at = start + length;
        match level {
            None => strings.take(*length, data, offsets)?,
            Some(level) => {
                ends.clear();
                ends.push(data.len() as i32);
                strings.take(count_present(Some(level), *start, at), data, &mut ends)?;
                let mut taken = 0;
                offsets.extend(level[*start..at].iter().map(|l| {
                    taken += *l as usize;
                    ends[taken]
                }));
            }
        }
    }
    strings.skip(count_present(level, at, rows))?;
    strings.end()
}

fn extend_bytes(
    (offsets, data, text): (&mut Vec<i32>, &mut Vec<u8>, bool),
    validity: Option<&mut Bitmap>,
    level: Option<&[u8]>,
    present: usize,
    stored: &Stored,
    dict: Option<(&[i32], &[u8])>,
    selected: &[Interval],
    rows: usize,
) -> Result<()> {
    let last = offsets.len() - 1;
    let (keys, lengths);
    let strings = match stored {
        Stored::Plain(bytes) => Strings::Plain(bytes),
        Stored::Joined(page) => {
            let bytes;
            (lengths, bytes) = joined(page, present)?;
            Strings::Joined { lengths: &lengths, bytes }
        }
        Stored::Keys(bytes, width) => {
            let (ends, entries) = dict.ok_or(Error::NotCarried)?;
            keys = decode_keys(bytes, *width, present, ends.len() - 1)?;
            Strings::Named { keys: &keys, ends, entries }
        }
    };
    extend_selected(strings, (offsets, data), level, selected, rows)?;
    if let (Some(validity), Some(level)) = (validity, level) {
        for (start, length) in selected {
            extend_validity(validity, &level[*start..start + length]);
        }
    }
    // Entries were tested with the dictionary.
    if text && !matches!(stored, Stored::Keys(..)) {
        check_texts(data, &offsets[last..])?;
    }
    Ok(())
}

fn read_dict(physical: Physical, text: bool, body: &[u8], count: usize) -> Result<Dict> {
    Ok(match physical {
        Physical::Int32 if body.len() == count * 4 => Dict::Int32(plain(body).collect()),
        Physical::Int64 if body.len() == count * 8 => Dict::Int64(plain(body).collect()),
        Physical::ByteArray => {
            let (mut offsets, mut data) = (vec![0], Vec::new());
            let mut strings = Strings::Plain(body);
            strings.take(count, &mut data, &mut offsets)?;
            strings.end()?;
            if text {
                check_texts(&data, &offsets)?;
            }
            Dict::Bytes { offsets, data }
        }
        _ => return Err(Error::Damaged),
    })
}

struct ColumnReader<'a> {
    column: &'a Column,
    kind: Type,
    dict: Option<Dict>,
    array: Array,
    pages: usize,
}

impl<'a> ColumnReader<'a> {
    fn new(column: &'a Column, kind: Type, rows: usize) -> Self {
        let values = match kind {
            Type::Int32 => Values::Int32(Vec::with_capacity(rows)),
            Type::Int64 | Type::Milliseconds => Values::Int64(Vec::with_capacity(rows)),
            Type::Utf8 | Type::Binary => {
                let mut offsets = Vec::with_capacity(rows + 1);
                offsets.push(0);
                Values::Bytes { offsets, data: Vec::new(), text: kind == Type::Utf8 }
            }
            Type::Named => Values::Named { keys: Vec::with_capacity(rows), offsets: vec![], data: vec![] },
        };
        let validity = column.optional.then(Bitmap::default);
        ColumnReader { column, kind, dict: None, array: Array { values, validity }, pages: 0 }
    }

    fn dict_page(&mut self, h: &PageHeader, body: &[u8]) -> Result<()> {
        if h.encoding != 0 && h.encoding != 2 {
            return Err(Error::NotCarried);
        }
        self.pages += 1;
        let text = matches!(self.kind, Type::Utf8 | Type::Named);
        let dict = read_dict(self.column.physical, text, body, h.num_values)?;
        match (&mut self.array.values, dict) {
            (Values::Named { offsets, data, .. }, Dict::Bytes { offsets: places, data: entries }) => {
                (*offsets, *data) = (places, entries);
            }
            (_, dict) => self.dict = Some(dict),
        }
        Ok(())
    }

    fn data_page(&mut self, h: &PageHeader, body: &[u8], selected: &[Interval]) -> Result<()> {
        self.pages += 1;
        let rows = h.num_values;
        let (level, present, values) = if self.column.optional {
            if h.level_encoding != 3 {
                return Err(Error::NotCarried);
            }
            let (head, rest) = body.split_first_chunk::<4>().ok_or(Error::Damaged)?;
            let (level, values) =
                rest.split_at_checked(u32::from_le_bytes(*head) as usize).ok_or(Error::Damaged)?;
            let (level, present) = levels(level, rows)?;
            (Some(level), present, values)
        } else {
            (None, rows, body)
        };
        let stored = match h.encoding {
            _ if present == 0 => Stored::Plain(&[]),
            0 => Stored::Plain(values),
            6 => Stored::Joined(values),
            2 | 8 => {
                let (width, keys) = values.split_first().ok_or(Error::Damaged)?;
                Stored::Keys(keys, *width as u32)
            }
            _ => return Err(Error::NotCarried),
        };
        let level = level.as_deref();
        let validity = self.array.validity.as_mut();
        match (&mut self.array.values, &self.dict) {
            (Values::Int32(out), dict) => {
                let dict = match dict {
                    Some(Dict::Int32(d)) => Some(d),
                    _ => None,
                };
                extend_numbers(out, validity, level, present, &stored, dict, selected)
            }
            (Values::Int64(out), dict) => {
                let dict = match dict {
                    Some(Dict::Int64(d)) => Some(d),
                    _ => None,
                };
                let held = out.len();
                extend_numbers(out, validity, level, present, &stored, dict, selected)?;
                if self.kind == Type::Milliseconds {
                    to_milliseconds(&mut out[held..], self.column.steps);
                }
                Ok(())
            }
            (Values::Named { keys, offsets, .. }, _) => {
                let entries = offsets.len().checked_sub(1).ok_or(Error::NotCarried)?;
                extend_keys(keys, validity, level, present, &stored, entries, selected)
            }
            (Values::Bytes { offsets, data, text }, dict) => {
                let dict = match dict {
                    Some(Dict::Bytes { offsets, data }) => Some((&offsets[..], &data[..])),
                    _ => None,
                };
                let to = (offsets, data, *text);
                extend_bytes(to, validity, level, present, &stored, dict, selected, rows)
            }
        }
    }

    /// Reads the first `rows` rows of a whole chunk.
    fn whole(&mut self, bytes: &[u8], num_values: usize, rows: usize) -> Result<()> {
        let mut c = Compact::new(bytes);
        let mut seen = 0;
        let mut left = rows;
        let mut is_first = true;
        while left > 0 && seen < num_values {
            let h = page_header(&mut c)?;
            if h.size > bytes.len() - c.at {
                return Err(Error::Damaged);
            }
            let body = &bytes[c.at..c.at + h.size];
            c.at += h.size;
            match h.kind {
                2 if is_first => self.dict_page(&h, body)?,
                0 => {
                    seen += h.num_values;
                    if seen > num_values {
                        return Err(Error::Damaged);
                    }
                    let take = h.num_values.min(left);
                    self.data_page(&h, body, &[(0, take)])?;
                    left -= take;
                }
                _ => return Err(Error::Damaged),
            }
            is_first = false;
        }
        if left > 0 { Err(Error::Damaged) } else { Ok(()) }
    }
}

// ---------------------------------------------------------------- indexes

struct Location {
    offset: u64,
    size: u64,
    first: usize,
}

fn read_locations(input: &Input, chunk: &ChunkMeta, rows: usize) -> Result<Vec<Location>> {
    let (at, length) = chunk.offset_index.ok_or(Error::Damaged)?;
    let bytes = input.read(at, length)?;
    let mut c = Compact::new(&bytes);
    let mut list = Vec::new();
    c.fields(|c, id, kind| {
        if id != 1 {
            return Ok(false);
        }
        want(kind, 9)?;
        let (n, _) = c.list()?;
        list.reserve(n);
        for _ in 0..n {
            let mut l = Location { offset: 0, size: 0, first: 0 };
            c.fields(|c, id, _| {
                match id {
                    1 => l.offset = natural(c.i64()?)?,
                    2 => l.size = natural(c.i64()?)?,
                    3 => l.first = natural(c.i64()?)? as usize,
                    _ => return Ok(false),
                }
                Ok(true)
            })?;
            list.push(l);
        }
        Ok(true)
    })?;
    let ordered = list.windows(2).all(|w| w[0].first <= w[1].first);
    let Some(last) = list.last() else { return Err(Error::Damaged) };
    if list[0].first != 0 || !ordered || last.first > rows {
        return Err(Error::Damaged);
    }
    Ok(list)
}

/// The rows of each page.
fn page_rows(list: &[Location], rows: usize) -> Vec<Interval> {
    (0..list.len())
        .map(|i| {
            let end = list.get(i + 1).map_or(rows, |l| l.first);
            (list[i].first, end - list[i].first)
        })
        .collect()
}

/// Which pages of a bounded column are kept.
fn kept_pages(
    input: &Input,
    chunk: &ChunkMeta,
    physical: Physical,
    field: &Field,
    intervals: &[Interval],
) -> Result<Vec<bool>> {
    let (at, length) = chunk.column_index.ok_or(Error::Damaged)?;
    let bytes = input.read(at, length)?;
    let mut c = Compact::new(&bytes);
    let (mut null_pages, mut mins, mut maxs, mut nulls) = (vec![], vec![], vec![], None);
    c.fields(|c, id, _| {
        match id {
            1 => {
                let (n, _) = c.list()?;
                for _ in 0..n {
                    null_pages.push(c.byte()? == 1);
                }
            }
            2 | 3 => {
                let (n, _) = c.list()?;
                let list = if id == 2 { &mut mins } else { &mut maxs };
                for _ in 0..n {
                    list.push(c.binary()?);
                }
            }
            5 => {
                let (n, _) = c.list()?;
                let mut list = Vec::with_capacity(n);
                for _ in 0..n {
                    list.push(natural(c.i64()?)?);
                }
                nulls = Some(list);
            }
            _ => return Ok(false),
        }
        Ok(true)
    })?;
    let n = null_pages.len();
    if mins.len() != n || maxs.len() != n || nulls.as_ref().is_some_and(|l| l.len() != n) {
        return Err(Error::Damaged);
    }
    if intervals.len() != n {
        return Err(Error::Damaged);
    }
    (0..n)
        .map(|i| {
            let nulls = nulls.as_ref().map(|l| l[i]);
            let (min, max) = match null_pages[i] {
                true => (None, None),
                false => {
                    (Some(field.end(physical, mins[i])?), Some(field.end(physical, maxs[i])?))
                }
            };
            Ok(field.keeps(min, max, nulls, intervals[i].1 as u64))
        })
        .collect()
}

/// The rows in both lists.
fn both(a: &[Interval], b: &[Interval]) -> Vec<Interval> {
    let (mut i, mut j, mut out) = (0, 0, Vec::new());
    while i < a.len() && j < b.len() {
        let start = a[i].0.max(b[j].0);
        let (ea, eb) = (a[i].0 + a[i].1, b[j].0 + b[j].1);
        if start < ea.min(eb) {
            out.push((start, ea.min(eb) - start));
        }
        if ea < eb { i += 1 } else { j += 1 }
    }
    out
}

fn join(list: impl Iterator<Item = Interval>) -> Vec<Interval> {
    let mut out: Vec<Interval> = Vec::new();
    for (start, length) in list.filter(|i| i.1 > 0) {
        match out.last_mut() {
            Some(last) if last.0 + last.1 == start => last.1 += length,
            _ => out.push((start, length)),
        }
    }
    out
}

// ---------------------------------------------------------------- the scan

struct Scan {
    kept: Vec<(usize, Vec<Interval>)>,
    groups: Vec<Vec<Array>>,
    lengths: Vec<usize>,
    rows: usize,
    pages: usize,
}

fn group_keeps(field: &Field, column: &Column, chunk: &ChunkMeta, rows: usize) -> Result<bool> {
    let (mut min, mut max, mut nulls) = (None, None, None);
    if let Some(s) = &chunk.stats {
        min = s.min.as_deref().map(|b| field.end(column.physical, b)).transpose()?;
        max = s.max.as_deref().map(|b| field.end(column.physical, b)).transpose()?;
        nulls = s.nulls.map(natural).transpose()?;
    }
    Ok(field.keeps(min, max, nulls, rows as u64))
}

fn scan(input: &Input, request: &Request) -> Result<Scan> {
    let meta = input.meta()?;
    let fields = &request.fields;
    let mut chosen = Vec::new();
    for (i, f) in fields.iter().enumerate() {
        let at = meta.columns.iter().position(|c| c.name == f.name).ok_or(Error::Argument)?;
        if fields[..i].iter().any(|g| g.name == f.name) {
            return Err(Error::Argument);
        }
        let column = &meta.columns[at];
        let carried = match f.kind {
            Type::Int32 => column.physical == Physical::Int32,
            Type::Int64 | Type::Milliseconds => column.physical == Physical::Int64,
            Type::Utf8 | Type::Binary | Type::Named => column.physical == Physical::ByteArray,
        };
        if !carried || column.repeated {
            return Err(Error::NotCarried);
        }
        chosen.push(at);
    }
    if fields.is_empty() || request.chunk == Some(0) {
        return Err(Error::Argument);
    }

    let any_bound = fields.iter().any(Field::bounded);
    let mut counts = Vec::with_capacity(meta.groups.len());
    let mut indexed = any_bound;
    for g in &meta.groups {
        let mut keeps = true;
        for (f, at) in fields.iter().zip(&chosen).filter(|(f, _)| f.bounded()) {
            keeps &= group_keeps(f, &meta.columns[*at], &g.chunks[*at], g.rows)?;
        }
        counts.push(keeps);
        if keeps {
            indexed &= fields.iter().zip(&chosen).all(|(f, at)| {
                let chunk = &g.chunks[*at];
                chunk.offset_index.is_some() && (!f.bounded() || chunk.column_index.is_some())
            });
        }
    }

    let mut scan =
        Scan { kept: vec![], groups: vec![], lengths: vec![], rows: 0, pages: 0 };
    let mut locations: Vec<Vec<Vec<Location>>> = Vec::new();
    for (g, counts) in meta.groups.iter().zip(&counts) {
        let mut kept = if *counts { join(std::iter::once((0, g.rows))) } else { vec![] };
        let mut lists = Vec::new();
        if *counts && indexed {
            for (f, at) in fields.iter().zip(&chosen) {
                let chunk = &g.chunks[*at];
                let list = read_locations(input, chunk, g.rows)?;
                if f.bounded() {
                    let rows = page_rows(&list, g.rows);
                    let physical = meta.columns[*at].physical;
                    let pages = kept_pages(input, chunk, physical, f, &rows)?;
                    let rows = rows.into_iter().zip(pages).filter(|(_, k)| *k).map(|(r, _)| r);
                    kept = both(&kept, &join(rows));
                }
                lists.push(list);
            }
        }
        locations.push(lists);
        scan.kept.push((g.rows, kept));
    }

    let mut bytes = Vec::new();
    let mut left = request.limit.unwrap_or(usize::MAX);
    for (i, g) in meta.groups.iter().enumerate() {
        let kept = &scan.kept[i].1;
        let rows: usize = kept.iter().map(|k| k.1).sum();
        let rows = rows.min(left);
        if rows == 0 {
            continue;
        }
        left -= rows;
        let mut arrays = Vec::with_capacity(fields.len());
        for (n, (f, at)) in fields.iter().zip(&chosen).enumerate() {
            let chunk = &g.chunks[*at];
            if chunk.foreign || chunk.codec != 0 {
                return Err(Error::NotCarried);
            }
            if chunk.num_values != g.rows as u64 {
                return Err(Error::Damaged);
            }
            let mut reader = ColumnReader::new(&meta.columns[*at], f.kind, rows);
            if indexed {
                located(input, chunk, g.rows, &locations[i][n], kept, rows, &mut reader)?;
            } else {
                input.read_to(&mut bytes, chunk.start(), chunk.size)?;
                reader.whole(&bytes, g.rows, rows)?;
            }
            scan.pages += reader.pages;
            arrays.push(reader.array);
        }
        scan.rows += rows;
        scan.lengths.push(rows);
        scan.groups.push(arrays);
    }
    Ok(scan)
}

/// Reads the pages that hold the first `rows` kept rows.
fn located(
    input: &Input,
    chunk: &ChunkMeta,
    group_rows: usize,
    list: &[Location],
    kept: &[Interval],
    rows: usize,
    reader: &mut ColumnReader,
) -> Result<()> {
    let start = chunk.start();
    let first = list[0].offset;
    if first < start {
        return Err(Error::Damaged);
    }
    if first > start {
        let bytes = input.read(start, first - start)?;
        let mut c = Compact::new(&bytes);
        let h = page_header(&mut c)?;
        if h.kind != 2 || h.size > bytes.len() - c.at {
            return Err(Error::Damaged);
        }
        reader.dict_page(&h, &bytes[c.at..c.at + h.size])?;
    }
    let mut needed = Vec::new();
    let mut left = rows;
    for (l, (page_start, page_length)) in list.iter().zip(page_rows(list, group_rows)) {
        let mut selected = both(kept, &[(page_start, page_length)]);
        for s in &mut selected {
            s.0 -= page_start;
            s.1 = s.1.min(left);
            left -= s.1;
        }
        selected.retain(|s| s.1 > 0);
        if !selected.is_empty() {
            needed.push((l, page_length, selected));
        }
    }
    // Neighbouring pages are read by one call.
    let mut i = 0;
    while i < needed.len() {
        let from = needed[i].0.offset;
        let mut end = from + needed[i].0.size;
        let mut j = i + 1;
        while j < needed.len() && needed[j].0.offset == end {
            end += needed[j].0.size;
            j += 1;
        }
        if from < start || end > start + chunk.size {
            return Err(Error::Damaged);
        }
        let bytes = input.read(from, end - from)?;
        for (l, length, selected) in &needed[i..j] {
            let at = (l.offset - from) as usize;
            let page = &bytes[at..at + l.size as usize];
            let mut c = Compact::new(page);
            let h = page_header(&mut c)?;
            if h.kind != 0 || h.num_values != *length || c.at + h.size != page.len() {
                return Err(Error::Damaged);
            }
            reader.data_page(&h, &page[c.at..], selected)?;
        }
        i = j;
    }
    Ok(())
}

// ---------------------------------------------------------------- output

struct Output {
    buffer: Vec<u8>,
    file: std::mem::ManuallyDrop<File>,
}

const ROOM: usize = 1 << 16;

/// Whether a byte of a text is written as `\\x` and two digits.
fn needs_escape(b: u8) -> bool {
    b == b'\\' || b == b'"' || b < 32 || b == 127
}

static PAIRS: [u8; 200] = {
    let mut t = [0; 200];
    let mut i = 0;
    while i < 100 {
        t[2 * i] = b'0' + (i / 10) as u8;
        t[2 * i + 1] = b'0' + (i % 10) as u8;
        i += 1;
    }
    t
};

impl Output {
    fn new() -> Self {
        let file = std::mem::ManuallyDrop::new(unsafe { File::from_raw_fd(1) });
        Output { buffer: Vec::with_capacity(ROOM + 4096), file }
    }

    fn flush(&mut self) -> Result<()> {
        self.file.write_all(&self.buffer).map_err(|_| Error::Writing)?;
        self.buffer.clear();
        Ok(())
    }

    fn end_line(&mut self) -> Result<()> {
        self.buffer.push(b'\n');
        if self.buffer.len() >= ROOM { self.flush() } else { Ok(()) }
    }

    fn text(&mut self, s: &[u8]) {
        self.buffer.extend_from_slice(s);
    }

    fn number(&mut self, n: u64) {
        let mut digits = [0u8; 20];
        let mut at = 20;
        let mut n = n;
        while n >= 100 {
            let d = (n % 100) as usize;
            n /= 100;
            at -= 2;
            digits[at..at + 2].copy_from_slice(&PAIRS[2 * d..2 * d + 2]);
        }
        if n >= 10 {
            let d = n as usize;
            at -= 2;
            digits[at..at + 2].copy_from_slice(&PAIRS[2 * d..2 * d + 2]);
        } else {
            at -= 1;
            digits[at] = b'0' + n as u8;
        }
        self.buffer.extend_from_slice(&digits[at..]);
    }

    fn signed(&mut self, n: i64) {
        if n < 0 {
            self.buffer.push(b'-');
        }
        self.number(n.unsigned_abs());
    }

    fn quoted(&mut self, s: &[u8]) {
        self.buffer.push(b'"');
        // (every byte is looked at, so that many are at once)
        if !s.iter().fold(false, |found, b| found | needs_escape(*b)) {
            self.buffer.extend_from_slice(s);
        } else {
            for b in s {
                if needs_escape(*b) {
                    self.buffer.extend_from_slice(b"\\x");
                    self.hex(*b);
                } else {
                    self.buffer.push(*b);
                }
            }
        }
        self.buffer.push(b'"');
    }

    fn hex(&mut self, b: u8) {
        const DIGITS: &[u8; 16] = b"0123456789abcdef";
        self.buffer.push(DIGITS[(b >> 4) as usize]);
        self.buffer.push(DIGITS[(b & 15) as usize]);
    }

    fn cell(&mut self, array: &Array, i: usize) {
        if array.validity.as_ref().is_some_and(|v| !v.get(i)) {
            return self.text(b"null");
        }
        match &array.values {
            Values::Int32(v) => self.signed(v[i] as i64),
            Values::Int64(v) => self.signed(v[i]),
            Values::Named { keys, offsets, data } => {
                let key = keys[i] as usize;
                self.quoted(&data[offsets[key] as usize..offsets[key + 1] as usize]);
            }
            Values::Bytes { offsets, data, text } => {
                let s = &data[offsets[i] as usize..offsets[i + 1] as usize];
                if *text {
                    self.quoted(s);
                } else {
                    self.text(b"0x");
                    for b in s {
                        self.hex(*b);
                    }
                }
            }
        }
    }

    fn rows(&mut self, arrays: &[Array], from: usize, to: usize) -> Result<()> {
        for i in from..to {
            for (n, a) in arrays.iter().enumerate() {
                if n > 0 {
                    self.buffer.push(b'\t');
                }
                self.cell(a, i);
            }
            self.end_line()?;
        }
        Ok(())
    }
}

fn print(scan: &Scan, request: &Request) -> Result<()> {
    let mut out = Output::new();
    for (i, (rows, kept)) in scan.kept.iter().enumerate() {
        out.text(b"group ");
        out.number(i as u64);
        out.text(b" ");
        out.number(*rows as u64);
        if kept.is_empty() {
            out.text(b" -");
        }
        for (start, length) in kept {
            out.text(b" ");
            out.number(*start as u64);
            out.text(b"+");
            out.number(*length as u64);
        }
        out.end_line()?;
    }
    if request.summary {
        out.text(b"rows ");
        out.number(scan.rows as u64);
        out.end_line()?;
        out.text(b"pages ");
        out.number(scan.pages as u64);
        out.end_line()?;
    } else {
        for (arrays, length) in scan.groups.iter().zip(&scan.lengths) {
            let size = request.chunk.unwrap_or(usize::MAX).min(*length);
            let mut at = 0;
            while at < *length {
                let end = (at + size).min(*length);
                out.text(b"chunk ");
                out.number((end - at) as u64);
                out.end_line()?;
                out.rows(arrays, at, end)?;
                at = end;
            }
        }
    }
    out.flush()
}

/// Reads a file in parts of 160 KiB, and keeps all of them side by side.
fn copy(path: &str) -> Result<()> {
    const PART: u64 = 160 << 10;
    let input = Input::open(path)?;
    let (mut part, mut all) = (Vec::new(), Vec::with_capacity(input.size as usize));
    let mut at = 0;
    while at < input.size {
        let length = PART.min(input.size - at);
        input.read_to(&mut part, at, length)?;
        all.extend_from_slice(&part);
        at += length;
    }
    std::hint::black_box(&all);
    Ok(())
}

fn run(words: &[String]) -> Result<()> {
    match words {
        [word, path] if word == "--copy" => copy(path),
        _ => print_scan(words),
    }
}

fn print_scan(words: &[String]) -> Result<()> {
    let request = request(words)?;
    let input = Input::open(&request.file)?;
    let scan = scan(&input, &request)?;
    print(&scan, &request)
}

fn main() {
    let words: Vec<String> = std::env::args().skip(1).collect();
    let status = match run(&words) {
        Ok(()) => 0,
        Err(Error::Words) => 2,
        Err(Error::Argument) => 3,
        Err(Error::NotCarried) => 4,
        Err(Error::Damaged) => 5,
        Err(Error::NotValid) => 6,
        Err(Error::Range) => 7,
        Err(Error::Reading) => 8,
        Err(Error::Writing) => 9,
    };
    if status != 0 {
        eprintln!("twin: status {status}");
    }
    std::process::exit(status);
}
