//! Rows of bits turned into columns.

/// Bit k of word i of the answer is bit i of row k.
pub fn columns(rows: impl ExactSizeIterator<Item = u64>) -> [u64; 64] {
    let mut words = [0; 64];
    // a few rows are quicker bit by bit
    if rows.len() < 20 {
        for (k, mut row) in rows.enumerate() {
            while row != 0 {
                words[row.trailing_zeros() as usize] |= 1 << k;
                row &= row - 1;
            }
        }
        return words;
    }
    for (word, row) in words.iter_mut().zip(rows) {
        *word = row;
    }
    transpose(&mut words);
    words
}

/// Squares of 32, 16, 8, 4, 2 and 1 bits swap places across the diagonal.
fn transpose(words: &mut [u64; 64]) {
    let mut size = 32;
    let mut mask = u64::MAX >> 32;
    while size != 0 {
        let mut k = 0;
        while k < 64 {
            let swapped = ((words[k] >> size) ^ words[k | size]) & mask;
            words[k] ^= swapped << size;
            words[k | size] ^= swapped;
            k = ((k | size) + 1) & !size;
        }
        size >>= 1;
        mask ^= mask << size;
    }
}

/// The lowest `count` bits.
pub fn lowest_bits(count: usize) -> u64 {
    if count >= 64 {
        u64::MAX
    } else {
        (1 << count) - 1
    }
}

#[cfg(test)]
mod tests {
    use super::*;

    #[test]
    fn both_ways_agree() {
        let rows: Vec<u64> = (1..=64u64)
            .map(|k| k.wrapping_mul(0x9e37_79b9_7f4a_7c15).rotate_left(k as u32))
            .collect();
        for count in [1, 19, 20, 63, 64] {
            let words = columns(rows[..count].iter().copied());
            for (k, row) in rows[..count].iter().enumerate() {
                for (i, word) in words.iter().enumerate() {
                    assert_eq!(row >> i & 1, word >> k & 1);
                }
            }
            assert!(words.iter().all(|w| w & !lowest_bits(count) == 0));
        }
    }
}
