// The same decoders in plain Rust, timed in the same way: KIND WIDTH COUNT FILE.
use std::time::Instant;

include!("../formats.rs");

const ROUNDS: u32 = 400;

#[inline(never)]
fn hybrid(bytes: &[u8], width: usize, out: &mut [u32]) -> Option<usize> {
    let mut place = 0;
    let mut done = 0;
    while done < out.len() {
        let header = varint(bytes, &mut place)?;
        let room = out.len() - done;
        if header & 1 == 0 {
            let size = width.div_ceil(8);
            let mut word = [0u8; 4];
            word[..size].copy_from_slice(bytes.get(place..place + size)?);
            place += size;
            let count = room.min((header >> 1) as usize);
            out[done..done + count].fill(u32::from_le_bytes(word));
            done += count;
        } else {
            let length = ((header >> 1) as usize).checked_mul(width)?;
            let count = room.min(((header >> 1) as usize).checked_mul(8)?);
            let packed = bytes.get(place..place.checked_add(length)?)?;
            unpack(packed, width, &mut out[done..done + count]);
            place += length;
            done += count;
        }
    }
    Some(done)
}

/// The number in `width` bits from a bit on.
fn wide(bytes: &[u8], bit: usize, width: usize) -> u64 {
    let low = word_at(bytes, bit / 8) >> (bit % 8);
    let value = if bit % 8 + width > 64 { low | word_at(bytes, bit / 8 + 8) << (64 - bit % 8) } else { low };
    if width == 64 { value } else { value & ((1 << width) - 1) }
}

#[inline(never)]
fn delta(bytes: &[u8], out: &mut [i64]) -> Option<usize> {
    let mut place = 0;
    let block = varint(bytes, &mut place)? as usize;
    let parts = varint(bytes, &mut place)? as usize;
    let total = varint(bytes, &mut place)? as usize;
    let mut value = zigzag(varint(bytes, &mut place)?);
    if total != out.len() || parts == 0 || block % parts != 0 {
        return None;
    }
    let size = block / parts;
    let (first, mut rest) = out.split_first_mut()?;
    *first = value;
    while !rest.is_empty() {
        let least = zigzag(varint(bytes, &mut place)?);
        let widths = bytes.get(place..place + parts)?;
        place += parts;
        for width in widths {
            if rest.is_empty() {
                break;
            }
            let width = usize::from(*width);
            if width > 64 {
                return None;
            }
            let body = bytes.get(place..place + (size * width).div_ceil(8))?;
            place += body.len();
            let count = size.min(rest.len());
            let (now, later) = rest.split_at_mut(count);
            for (i, slot) in now.iter_mut().enumerate() {
                let step = if width == 0 { 0 } else { wide(body, i * width, width) };
                value = value.wrapping_add(least).wrapping_add(step as i64);
                *slot = value;
            }
            rest = later;
        }
    }
    Some(total)
}

#[inline(never)]
fn plain(bytes: &[u8], out: &mut [i64]) -> Option<usize> {
    let values = bytes.get(..out.len().checked_mul(8)?)?;
    for (slot, word) in out.iter_mut().zip(values.chunks_exact(8)) {
        *slot = i64::from_le_bytes(word.try_into().unwrap());
    }
    Some(out.len())
}

fn main() {
    let words: Vec<String> = std::env::args().collect();
    let width: usize = words[2].parse().unwrap();
    let count: usize = words[3].parse().unwrap();
    let bytes = std::fs::read(&words[4]).unwrap();
    let mut best = u128::MAX;
    let mut given = 0;
    let mut narrow = vec![0u32; count];
    let mut numbers = vec![0i64; count];
    for _ in 0..ROUNDS {
        let start = Instant::now();
        given = match words[1].as_str() {
            "hybrid" => hybrid(&bytes, width, &mut narrow),
            "delta" => delta(&bytes, &mut numbers),
            _ => plain(&bytes, &mut numbers),
        }
        .unwrap_or(0);
        best = best.min(start.elapsed().as_nanos());
    }
    let mut sum = given as u64;
    if words[1] == "hybrid" {
        for value in &narrow {
            sum = sum.wrapping_mul(31).wrapping_add(u64::from(*value));
        }
    } else {
        for value in &numbers {
            sum = sum.wrapping_mul(31).wrapping_add(*value as u64);
        }
    }
    println!("{} {}", best * 1000 / count.max(1) as u128, sum);
}
