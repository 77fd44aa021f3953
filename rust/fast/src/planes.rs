//! Bytes 0, 1 and 2 as two bit planes.

const ONES: u64 = 0x0101_0101_0101_0101;

/// The lowest bits of the eight bytes of a word, in order.
fn gather(word: u64) -> u64 {
    (word & ONES).wrapping_mul(0x0102_0408_1020_4080) >> 56
}

/// Bit k of `low` is set if byte k is 1, of `high` if it is 2. A byte above 2 stops it: the place of the first is returned.
pub fn planes(bytes: &[u8], low: &mut [u64], high: &mut [u64]) -> Result<(), usize> {
    let mut bad = 0;
    for ((chunk, low), high) in bytes.chunks(64).zip(low).zip(high) {
        let (mut l, mut h, mut at) = (0, 0, 0);
        let eights = chunk.chunks_exact(8);
        for (k, &byte) in eights.remainder().iter().enumerate() {
            let place = chunk.len() / 8 * 8 + k;
            l |= u64::from(byte & 1) << place;
            h |= u64::from(byte >> 1 & 1) << place;
            bad |= u64::from(byte > 2);
        }
        for eight in eights {
            let word = u64::from_le_bytes(eight.try_into().expect("eight bytes"));
            l |= gather(word) << at;
            h |= gather(word >> 1) << at;
            bad |= (word & (ONES * 0xfc)) | (word & (word >> 1) & ONES);
            at += 8;
        }
        *low = l;
        *high = h;
    }
    match bad {
        0 => Ok(()),
        _ => Err(bytes.iter().position(|&b| b > 2).expect("a byte above 2")),
    }
}
