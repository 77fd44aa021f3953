//! Cubes, and sets of points.

/// A set of points: point p is bit p % 64 of word p / 64.
pub type Set = [u64; 16];

/// A cube, or a product: the inputs that it has a literal for, and their values. Other bits are 0.
#[derive(Clone, Copy, Debug, PartialEq, Eq)]
pub struct Cube {
    pub care: u16,
    pub value: u16,
}

/// The points of a word at which each of the six low inputs is 1.
pub const INPUT: [u64; 6] = [
    0xaaaa_aaaa_aaaa_aaaa,
    0xcccc_cccc_cccc_cccc,
    0xf0f0_f0f0_f0f0_f0f0,
    0xff00_ff00_ff00_ff00,
    0xffff_0000_ffff_0000,
    0xffff_ffff_0000_0000,
];

/// The points of a word in a cube over inputs 0 to 2, and over inputs 3 to 5, by `care` and `value`.
static LOW: [[[u64; 8]; 8]; 2] = low_masks();

const fn low_masks() -> [[[u64; 8]; 8]; 2] {
    let mut masks = [[[0; 8]; 8]; 2];
    let mut half = 0;
    while half < 2 {
        let mut at = 0;
        while at < 64 {
            let (care, value) = (at / 8, at % 8);
            let mut mask = u64::MAX;
            let mut i = 0;
            while i < 3 {
                if care >> i & 1 == 1 {
                    let input = INPUT[3 * half + i];
                    mask &= if value >> i & 1 == 1 { input } else { !input };
                }
                i += 1;
            }
            masks[half][care][value] = mask;
            at += 1;
        }
        half += 1;
    }
    masks
}

/// The bytes of the product that has this rank.
pub fn write_ranked(rank: u32, bytes: &mut [u8]) {
    for (i, byte) in bytes.iter_mut().enumerate() {
        *byte = (rank >> (30 - 2 * i) & 3) as u8;
    }
}

/// The bits of a number, two places apart.
fn apart(bits: u16) -> u32 {
    let mut x = u32::from(bits);
    x = (x | x << 8) & 0x00ff_00ff;
    x = (x | x << 4) & 0x0f0f_0f0f;
    x = (x | x << 2) & 0x3333_3333;
    (x | x << 1) & 0x5555_5555
}

impl Cube {
    /// The smallest cube with both points.
    pub fn spanned(p: u16, q: u16, full: u16) -> Self {
        let care = !(p ^ q) & full;
        Cube {
            care,
            value: p & care,
        }
    }

    /// The smallest cube around this one and a point.
    pub fn with(self, point: u16) -> Self {
        let care = self.care & !(self.value ^ point);
        Cube {
            care,
            value: self.value & care,
        }
    }

    /// The smallest cube around this one and another.
    pub fn around(self, other: Cube) -> Self {
        let care = self.care & other.care & !(self.value ^ other.value);
        Cube {
            care,
            value: self.value & care,
        }
    }

    /// The cube without some of its literals.
    pub fn without(self, literals: u16) -> Self {
        Cube {
            care: self.care & !literals,
            value: self.value & !literals,
        }
    }

    /// Whether the other cube lies inside this one.
    pub fn holds(self, other: Cube) -> bool {
        ((self.value ^ other.value) | !other.care) & self.care == 0
    }

    /// A number that orders products as their bytes do: two bits for each input, its byte (0, 1, or 2 if it has no literal), input 0
    /// highest.
    pub fn rank(self) -> u32 {
        apart((!self.care).reverse_bits()) << 1 | apart(self.value.reverse_bits())
    }

    /// Its points in any word that it reaches.
    pub fn low(self) -> u64 {
        let (care, value) = (self.care as usize, self.value as usize);
        LOW[0][care & 7][value & 7] & LOW[1][care >> 3 & 7][value >> 3 & 7]
    }

    /// The words that it reaches, in order.
    pub fn words(self, words: usize) -> impl Iterator<Item = usize> {
        let free = !(self.care as usize >> 6) & (words - 1);
        let base = self.value as usize >> 6;
        let mut next = Some(0usize);
        std::iter::from_fn(move || {
            let sub = next?;
            // the next subset of the free bits, in increasing order
            let after = sub.wrapping_sub(free) & free;
            next = (after != 0).then_some(after);
            Some((base | sub) & 15)
        })
    }

    /// The lowest of its points in the set.
    pub fn lowest_in(self, set: &Set, words: usize) -> Option<u16> {
        let low = self.low();
        self.words(words).find_map(|w| lowest(w, set[w] & low))
    }
}

/// The lowest point of a word, if it has one.
pub fn lowest(word: usize, bits: u64) -> Option<u16> {
    (bits != 0).then(|| (64 * word) as u16 + bits.trailing_zeros() as u16)
}
