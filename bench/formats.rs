// What the twins read by the format, in plain Rust: numbers of several bytes, words, packed numbers.

fn varint(bytes: &[u8], place: &mut usize) -> Option<u64> {
    let mut value = 0u64;
    for shift in (0..70).step_by(7) {
        let byte = *bytes.get(*place)?;
        *place += 1;
        value |= u64::from(byte & 127).checked_shl(shift)?;
        if byte < 128 {
            return Some(value);
        }
    }
    None
}

fn zigzag(value: u64) -> i64 {
    (value >> 1) as i64 ^ -((value & 1) as i64)
}

fn word_at(bytes: &[u8], place: usize) -> u64 {
    let rest = &bytes[place..];
    match rest.first_chunk::<8>() {
        Some(word) => u64::from_le_bytes(*word),
        None => {
            let mut word = [0u8; 8];
            word[..rest.len()].copy_from_slice(rest);
            u64::from_le_bytes(word)
        }
    }
}

/// Unpacks numbers of at most 32 bits that begin at a byte's border.
fn unpack(bytes: &[u8], width: usize, out: &mut [u32]) {
    let mask = (1u64 << width) - 1;
    let mut groups = out.chunks_exact_mut(8);
    let mut place = 0;
    for group in &mut groups {
        if width <= 8 {
            let word = word_at(bytes, place);
            for (i, value) in group.iter_mut().enumerate() {
                *value = ((word >> (i * width)) & mask) as u32;
            }
        } else {
            for (i, value) in group.iter_mut().enumerate() {
                let bit = i * width;
                *value = ((word_at(bytes, place + bit / 8) >> (bit % 8)) & mask) as u32;
            }
        }
        place += width;
    }
    for (i, value) in groups.into_remainder().iter_mut().enumerate() {
        let bit = i * width;
        *value = ((word_at(bytes, place + bit / 8) >> (bit % 8)) & mask) as u32;
    }
}
