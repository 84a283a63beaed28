// The same walk in plain Rust: COUNT FILE. Reads each header, and passes over the body.
use std::time::Instant;

fn varint(bytes: &[u8], place: &mut usize) -> Option<u64> {
    let mut value = 0u64;
    let mut shift = 0;
    while shift < 70 {
        let byte = *bytes.get(*place)?;
        *place += 1;
        value |= u64::from(byte & 127).checked_shl(shift)?;
        if byte < 128 {
            return Some(value);
        }
        shift += 7;
    }
    None
}

fn number(bytes: &[u8], place: &mut usize) -> Option<i32> {
    let value = varint(bytes, place)?;
    i32::try_from((value >> 1) as i64 ^ -((value & 1) as i64)).ok()
}

/// The next field's id and kind, or None at the end of a struct.
fn field(bytes: &[u8], place: &mut usize, before: i16) -> Option<Option<(i16, u8)>> {
    let byte = *bytes.get(*place)?;
    *place += 1;
    if byte == 0 {
        return Some(None);
    }
    let id = if byte >> 4 == 0 { number(bytes, place)? as i16 } else { before.checked_add(i16::from(byte >> 4))? };
    Some(Some((id, byte & 15)))
}

/// Passes over a number or a struct of numbers; page headers hold nothing else here.
fn skip(bytes: &[u8], place: &mut usize, kind: u8) -> Option<()> {
    match kind {
        1 | 2 => {}
        4..=6 => {
            varint(bytes, place)?;
        }
        12 => {
            let mut id = 0;
            while let Some((next, kind)) = field(bytes, place, id)? {
                skip(bytes, place, kind)?;
                id = next;
            }
        }
        _ => return None,
    }
    Some(())
}

struct Header {
    size: usize,
    values: u64,
}

fn header(bytes: &[u8], place: &mut usize) -> Option<Header> {
    let (mut id, mut kind_of_page, mut size, mut values) = (0, None, None, None);
    while let Some((next, kind)) = field(bytes, place, id)? {
        match (next, kind) {
            (1, 5) => kind_of_page = Some(number(bytes, place)?),
            (3, 5) => size = Some(usize::try_from(number(bytes, place)?).ok()?),
            (5, 12) => {
                let mut inner = 0;
                while let Some((next, kind)) = field(bytes, place, inner)? {
                    if (next, kind) == (1, 5) {
                        values = Some(u64::try_from(number(bytes, place)?).ok()?);
                    } else {
                        skip(bytes, place, kind)?;
                    }
                    inner = next;
                }
            }
            _ => skip(bytes, place, kind)?,
        }
        id = next;
    }
    (kind_of_page? == 0).then_some(())?;
    Some(Header { size: size?, values: values? })
}

#[inline(never)]
fn walk(bytes: &[u8], count: u64) -> Option<u64> {
    let (mut place, mut left, mut sum) = (0, count, 0);
    while left > 0 {
        let header = header(bytes, &mut place)?;
        let body = bytes.get(place..place.checked_add(header.size)?)?;
        place += header.size;
        left = left.checked_sub(header.values)?;
        sum += std::hint::black_box(body).len() as u64;
    }
    Some(sum)
}

fn main() {
    let words: Vec<String> = std::env::args().collect();
    let count: u64 = words[1].parse().unwrap();
    let data = std::fs::read(&words[2]).unwrap();
    let (mut best, mut sum) = (u128::MAX, 0);
    for _ in 0..30 {
        let copy = data.clone();
        let start = Instant::now();
        sum = walk(&copy, count).unwrap_or(0);
        best = best.min(start.elapsed().as_nanos());
    }
    println!("{} {}", best * 1000 / u128::from(count.max(1)), sum);
}
