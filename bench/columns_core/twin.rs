// The same bulk calls in plain Rust: KIND FILE.
use std::time::Instant;

struct Bits {
    bytes: Vec<u8>,
    length: usize,
}

impl Bits {
    fn extend_constant(&mut self, count: usize) {
        let used = self.length % 8;
        let mut left = count;
        if used > 0 {
            let now = left.min(8 - used);
            if let Some(last) = self.bytes.last_mut() {
                *last |= (((1u16 << now) - 1) << used) as u8;
            }
            left -= now;
        }
        self.bytes.resize(self.bytes.len() + left / 8, 255);
        if left % 8 > 0 {
            self.bytes.push((1u8 << (left % 8)) - 1);
        }
        self.length += count;
    }

    /// Appends all bits of some bytes.
    fn extend_from_slice(&mut self, bytes: &[u8]) {
        let used = self.length % 8;
        if used == 0 {
            self.bytes.extend_from_slice(bytes);
        } else {
            for byte in bytes {
                if let Some(last) = self.bytes.last_mut() {
                    *last |= byte << used;
                }
                self.bytes.push(byte >> (8 - used));
            }
        }
        self.length += 8 * bytes.len();
    }

    fn unset(&self) -> usize {
        let (words, rest) = self.bytes.as_chunks::<8>();
        let set: u32 = words.iter().map(|word| u64::from_le_bytes(*word).count_ones()).sum::<u32>()
            + rest.iter().map(|byte| byte.count_ones()).sum::<u32>();
        self.length - set as usize
    }
}

#[inline(never)]
fn bits(bytes: &[u8], shift: usize) -> Bits {
    let mut list = Bits { bytes: Vec::with_capacity(bytes.len()), length: 0 };
    list.extend_constant(shift);
    list.extend_from_slice(bytes);
    list
}

#[inline(never)]
fn constant(count: usize) -> Bits {
    let mut list = Bits { bytes: Vec::with_capacity(count / 8), length: 0 };
    list.extend_constant(count);
    list
}

#[inline(never)]
fn texts(offsets: &[i32], values: &[u8]) -> Option<usize> {
    let text = std::str::from_utf8(values).ok()?;
    let last = *offsets.last()?;
    if last as usize > values.len() {
        return None;
    }
    if !text.is_ascii() && !offsets.iter().all(|end| text.is_char_boundary(*end as usize)) {
        return None;
    }
    Some(offsets.len() - 1)
}

fn main() {
    let words: Vec<String> = std::env::args().collect();
    let bytes = std::fs::read(&words[2]).unwrap();
    let whole = bits(&bytes, 0);
    let offsets: Vec<i32> = (0..=bytes.len() / 8).map(|i| 8 * i as i32).collect();
    let (mut best, mut sum) = (u128::MAX, 0);
    for _ in 0..200 {
        let start = Instant::now();
        let made;
        match words[1].as_str() {
            "aligned" => made = Some(bits(&bytes, 0)),
            "shifted" => made = Some(bits(&bytes, 3)),
            "constant" => made = Some(constant(8 * bytes.len())),
            "unset" => {
                sum = std::hint::black_box(&whole).unset();
                made = None;
            }
            _ => {
                sum = texts(&offsets, &bytes).unwrap_or(0);
                made = None;
            }
        }
        best = best.min(start.elapsed().as_nanos());
        if let Some(list) = made {
            sum = list.unset();
        }
    }
    println!("{} {}", best * 1000 / bytes.len().max(1) as u128, sum);
}
