// The same pages in plain Rust, timed in the same way: KIND COUNT FILE DICTIONARY.
use std::time::Instant;

include!("../formats.rs");

const ROUNDS: u32 = 400;

/// Values, and for an optional column which of them are there, a bit for each.
struct Decoded<T> {
    values: Vec<T>,
    validity: Option<Bits>,
}

#[derive(Default)]
struct Bits {
    bytes: Vec<u8>,
    length: usize,
}

impl Bits {
    fn push(&mut self, bit: bool) {
        if self.length % 8 == 0 {
            self.bytes.push(0);
        }
        *self.bytes.last_mut().unwrap() |= u8::from(bit) << (self.length % 8);
        self.length += 1;
    }

    fn extend(&mut self, bits: &[u8], count: usize) {
        if self.length % 8 == 0 && count % 8 == 0 {
            self.bytes.extend_from_slice(&bits[..count / 8]);
            self.length += count;
        } else {
            (0..count).for_each(|i| self.push(get(bits, i)));
        }
    }
}

fn get(bits: &[u8], i: usize) -> bool {
    bits[i / 8] >> (i % 8) & 1 == 1
}

enum Run<'a> {
    Repeated(u32, usize),
    Packed(&'a [u8], usize),
}

/// The next run of a hybrid encoding, with at most so many values.
fn run<'a>(bytes: &'a [u8], place: &mut usize, width: usize, left: usize) -> Option<Run<'a>> {
    let header = varint(bytes, place)?;
    let length = (header >> 1) as usize;
    if header & 1 == 0 {
        let size = width.div_ceil(8);
        let mut word = [0u8; 4];
        word[..size].copy_from_slice(bytes.get(*place..*place + size)?);
        *place += size;
        Some(Run::Repeated(u32::from_le_bytes(word), left.min(length)))
    } else {
        let packed = bytes.get(*place..place.checked_add(length.checked_mul(width)?)?)?;
        *place += packed.len();
        Some(Run::Packed(packed, left.min(length.checked_mul(8)?)))
    }
}

#[inline(never)]
fn plain(body: &[u8], count: usize) -> Option<Decoded<i64>> {
    let body = body.get(..count.checked_mul(8)?)?;
    let values = body.chunks_exact(8).map(|word| i64::from_le_bytes(word.try_into().unwrap())).collect();
    Some(Decoded { values, validity: None })
}

#[inline(never)]
fn optional(body: &[u8], count: usize) -> Option<Decoded<i32>> {
    let size = u32::from_le_bytes(*body.first_chunk()?) as usize;
    let levels = body.get(4..size.checked_add(4)?)?;
    let mut stored = body[4 + size..].chunks_exact(4).map(|word| i32::from_le_bytes(word.try_into().unwrap()));
    let mut values = Vec::with_capacity(count);
    let mut validity = Bits { bytes: Vec::with_capacity(count.div_ceil(8)), length: 0 };
    let mut place = 0;
    while values.len() < count {
        match run(levels, &mut place, 1, count - values.len())? {
            Run::Repeated(0, length) => {
                values.resize(values.len() + length, 0);
                (0..length).for_each(|_| validity.push(false));
            }
            Run::Repeated(_, length) => {
                let held = values.len();
                values.extend(stored.by_ref().take(length));
                (values.len() == held + length).then_some(())?;
                (0..length).for_each(|_| validity.push(true));
            }
            Run::Packed(bits, length) => {
                for i in 0..length {
                    values.push(if get(bits, i) { stored.next()? } else { 0 });
                }
                validity.extend(bits, length);
            }
        }
    }
    Some(Decoded { values, validity: Some(validity) })
}

#[inline(never)]
fn keys(body: &[u8], dict: &[i32], count: usize) -> Option<Decoded<i32>> {
    let (width, body) = body.split_first()?;
    let width = usize::from(*width);
    if width > 32 {
        return None;
    }
    let mut values = Vec::with_capacity(count);
    let mut place = 0;
    let mut chunk = [0u32; 128];
    while values.len() < count {
        match run(body, &mut place, width, count - values.len())? {
            Run::Repeated(key, length) => values.resize(values.len() + length, *dict.get(key as usize)?),
            Run::Packed(packed, length) => {
                let mut done = 0;
                while done < length {
                    let part = &mut chunk[..(length - done).min(128)];
                    unpack(&packed[done / 8 * width..], width, part);
                    for key in part.iter() {
                        values.push(*dict.get(*key as usize)?);
                    }
                    done += part.len();
                }
            }
        }
    }
    Some(Decoded { values, validity: None })
}

/// The number in `width` bits from a bit on.
fn wide(bytes: &[u8], bit: usize, width: usize) -> u64 {
    let low = word_at(bytes, bit / 8) >> (bit % 8);
    let value = if bit % 8 + width > 64 { low | word_at(bytes, bit / 8 + 8) << (64 - bit % 8) } else { low };
    if width == 64 { value } else { value & ((1 << width) - 1) }
}

#[inline(never)]
fn delta(bytes: &[u8], count: usize) -> Option<Decoded<i64>> {
    let mut place = 0;
    let block = varint(bytes, &mut place)? as usize;
    let parts = varint(bytes, &mut place)? as usize;
    let total = varint(bytes, &mut place)? as usize;
    let mut value = zigzag(varint(bytes, &mut place)?);
    if total != count || parts == 0 || block % parts != 0 {
        return None;
    }
    let size = block / parts;
    let mut values = Vec::with_capacity(count);
    values.push(value);
    while values.len() < count {
        let least = zigzag(varint(bytes, &mut place)?);
        let widths = bytes.get(place..place.checked_add(parts)?)?;
        place += parts;
        for width in widths {
            let length = size.min(count - values.len());
            if length == 0 {
                break;
            }
            let width = usize::from(*width);
            if width > 64 {
                return None;
            }
            let body = bytes.get(place..place + (size * width).div_ceil(8))?;
            place += body.len();
            values.extend((0..length).map(|i| {
                let step = if width == 0 { 0 } else { wide(body, i * width, width) };
                value = value.wrapping_add(least).wrapping_add(step as i64);
                value
            }));
        }
    }
    Some(Decoded { values, validity: None })
}

/// The time of the fastest round, and a checksum of the last.
fn time<T: Copy>(decode: impl Fn() -> Option<Decoded<T>>, pattern: impl Fn(T) -> u64) -> (u128, u64) {
    let (mut best, mut sum) = (u128::MAX, 0u64);
    for round in 0..ROUNDS {
        let start = Instant::now();
        let decoded = decode().unwrap();
        best = best.min(start.elapsed().as_nanos());
        if round + 1 == ROUNDS {
            for (i, value) in decoded.values.iter().enumerate() {
                let there = decoded.validity.as_ref().is_none_or(|bits| get(&bits.bytes, i));
                sum = sum.wrapping_mul(31).wrapping_add(if there { pattern(*value) } else { 1 << 40 });
            }
        }
    }
    (best, sum)
}

fn main() {
    let words: Vec<String> = std::env::args().collect();
    let count: usize = words[2].parse().unwrap();
    let bytes = std::fs::read(&words[3]).unwrap();
    let entries = std::fs::read(&words[4]).unwrap();
    let dict: Vec<i32> = entries.chunks_exact(4).map(|word| i32::from_le_bytes(word.try_into().unwrap())).collect();
    let wide = |value: i64| value as u64;
    let narrow = |value: i32| u64::from(value as u32);
    let (best, sum) = match words[1].as_str() {
        "plain" => time(|| plain(&bytes, count), wide),
        "delta" => time(|| delta(&bytes, count), wide),
        "optional" => time(|| optional(&bytes, count), narrow),
        _ => time(|| keys(&bytes, &dict, count), narrow),
    };
    println!("{} {}", best * 1000 / count.max(1) as u128, sum);
}
