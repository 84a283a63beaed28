// The same footer in plain Rust, timed in the same way: FILE. It keeps what the reader keeps: a descriptor, the numbers and the
// statistics of each chunk.
use std::fs::File;
use std::os::unix::fs::FileExt;
use std::time::Instant;

#[derive(Clone)]
#[allow(dead_code)]
struct Descriptor {
    path: Vec<String>,
    physical_type: i32,
    repetition: i32,
}

#[derive(Default)]
#[allow(dead_code)]
struct Statistics {
    null_count: Option<i64>,
    distinct_count: Option<i64>,
    max_value: Option<Vec<u8>>,
    min_value: Option<Vec<u8>>,
}

#[derive(Default)]
#[allow(dead_code)]
struct Numbers {
    physical_type: i32,
    codec: i32,
    num_values: i64,
    total_compressed_size: i64,
    data_page_offset: i64,
    statistics: Option<Statistics>,
}

#[allow(dead_code)]
struct Chunk {
    descriptor: Descriptor,
    numbers: Numbers,
}

struct Reader<'a> {
    bytes: &'a [u8],
    place: usize,
}

impl<'a> Reader<'a> {
    fn byte(&mut self) -> Option<u8> {
        let byte = *self.bytes.get(self.place)?;
        self.place += 1;
        Some(byte)
    }

    fn varint(&mut self) -> Option<u64> {
        let mut value = 0u64;
        for shift in (0..70).step_by(7) {
            let byte = self.byte()?;
            value |= u64::from(byte & 127).checked_shl(shift)?;
            if byte < 128 {
                return Some(value);
            }
        }
        None
    }

    fn signed(&mut self) -> Option<i64> {
        let number = self.varint()?;
        Some((number >> 1) as i64 ^ -((number & 1) as i64))
    }

    fn binary(&mut self) -> Option<&'a [u8]> {
        let length = self.varint()? as usize;
        let bytes = self.bytes.get(self.place..)?.get(..length)?;
        self.place += length;
        Some(bytes)
    }

    fn field(&mut self, previous: &mut i64) -> Option<Option<(i64, u8)>> {
        let byte = self.byte()?;
        if byte == 0 {
            return Some(None);
        }
        *previous = match byte >> 4 {
            0 => self.signed()?,
            step => *previous + i64::from(step),
        };
        Some(Some((*previous, byte & 15)))
    }

    fn list(&mut self) -> Option<(usize, u8)> {
        let byte = self.byte()?;
        let count = match byte >> 4 {
            15 => self.varint()? as usize,
            count => count as usize,
        };
        Some((count, byte & 15))
    }

    fn skip(&mut self, kind: u8, depth: u32) -> Option<()> {
        if depth > 32 {
            return None;
        }
        match kind {
            1 | 2 => {}
            3 => drop(self.byte()?),
            4..=6 => drop(self.varint()?),
            7 => self.place += 8,
            8 => drop(self.binary()?),
            9 | 10 => {
                let (count, kind) = self.list()?;
                for _ in 0..count {
                    self.skip(kind, depth + 1)?;
                }
            }
            12 => {
                let mut previous = 0;
                while let Some((_, kind)) = self.field(&mut previous)? {
                    self.skip(kind, depth + 1)?;
                }
            }
            _ => return None,
        }
        Some(())
    }
}

fn element(reader: &mut Reader) -> Option<(Descriptor, i64)> {
    let (mut physical_type, mut repetition, mut name, mut children) = (-1, -1, None, 0);
    let mut previous = 0;
    while let Some((id, kind)) = reader.field(&mut previous)? {
        match id {
            1 => physical_type = reader.signed()? as i32,
            3 => repetition = reader.signed()? as i32,
            4 => name = Some(std::str::from_utf8(reader.binary()?).ok()?.to_owned()),
            5 => children = reader.signed()?,
            _ => reader.skip(kind, 1)?,
        }
    }
    Some((Descriptor { path: vec![name?], physical_type, repetition }, children))
}

fn statistics(reader: &mut Reader) -> Option<Statistics> {
    let mut found = Statistics::default();
    let mut previous = 0;
    while let Some((id, kind)) = reader.field(&mut previous)? {
        match id {
            3 => found.null_count = Some(reader.signed()?),
            4 => found.distinct_count = Some(reader.signed()?),
            5 => found.max_value = Some(reader.binary()?.to_vec()),
            6 => found.min_value = Some(reader.binary()?.to_vec()),
            _ => reader.skip(kind, 1)?,
        }
    }
    Some(found)
}

fn numbers(reader: &mut Reader) -> Option<Numbers> {
    let mut found = Numbers::default();
    let mut previous = 0;
    while let Some((id, kind)) = reader.field(&mut previous)? {
        match id {
            1 => found.physical_type = reader.signed()? as i32,
            4 => found.codec = reader.signed()? as i32,
            5 => found.num_values = reader.signed()?,
            7 => found.total_compressed_size = reader.signed()?,
            9 => found.data_page_offset = reader.signed()?,
            12 => found.statistics = Some(statistics(reader)?),
            _ => reader.skip(kind, 1)?,
        }
    }
    Some(found)
}

fn chunk(reader: &mut Reader) -> Option<Numbers> {
    let mut found = None;
    let mut previous = 0;
    while let Some((id, kind)) = reader.field(&mut previous)? {
        match id {
            3 => found = Some(numbers(reader)?),
            _ => reader.skip(kind, 1)?,
        }
    }
    found
}

fn group(reader: &mut Reader, leaves: &[Descriptor]) -> Option<(Vec<Chunk>, i64)> {
    let (mut chunks, mut rows) = (Vec::new(), 0);
    let mut previous = 0;
    while let Some((id, kind)) = reader.field(&mut previous)? {
        match id {
            1 => {
                let (count, _) = reader.list()?;
                for index in 0..count {
                    let numbers = chunk(reader)?;
                    let descriptor = leaves.get(index)?.clone();
                    chunks.push(Chunk { descriptor, numbers });
                }
            }
            3 => rows = reader.signed()?,
            _ => reader.skip(kind, 1)?,
        }
    }
    Some((chunks, rows))
}

fn metadata(bytes: &[u8]) -> Option<Vec<(Vec<Chunk>, i64)>> {
    let mut reader = Reader { bytes, place: 0 };
    let (mut leaves, mut groups) = (Vec::new(), Vec::new());
    let mut previous = 0;
    while let Some((id, kind)) = reader.field(&mut previous)? {
        match id {
            2 => {
                let (count, _) = reader.list()?;
                for index in 0..count {
                    let (leaf, _) = element(&mut reader)?;
                    if index > 0 {
                        leaves.push(leaf);
                    }
                }
            }
            4 => {
                let (count, _) = reader.list()?;
                for _ in 0..count {
                    groups.push(group(&mut reader, &leaves)?);
                }
            }
            _ => reader.skip(kind, 1)?,
        }
    }
    Some(groups)
}

fn main() {
    let path = std::env::args().nth(1).expect("a file");
    let start = Instant::now();
    let file = File::open(path).expect("the file");
    let size = file.metadata().expect("its size").len();
    let mut end = [0u8; 8];
    file.read_exact_at(&mut end, size - 8).expect("its end");
    let length = u64::from(u32::from_le_bytes(*end.first_chunk().expect("four bytes")));
    let mut bytes = vec![0u8; length as usize];
    file.read_exact_at(&mut bytes, size - 8 - length).expect("its footer");
    let groups = metadata(&bytes).expect("a footer");
    let chunks: i64 = groups.iter().flat_map(|(chunks, _)| chunks).map(|chunk| chunk.numbers.num_values / 100).sum();
    let rows: i64 = groups.iter().map(|(_, rows)| rows).sum();
    println!("{} {chunks} {rows}", start.elapsed().as_nanos());
}
