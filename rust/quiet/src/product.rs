//! Products.

use crate::MOST_INPUTS;
use std::fmt;

/// A product: for each input a plain literal, an inverted literal, or none. Ordered by its bytes, from input 0 on: an absent literal, printed
/// `-`, comes after both others.
#[derive(Clone, Copy, PartialEq, Eq, Hash, PartialOrd, Ord)]
pub struct Product {
    bytes: [u8; MOST_INPUTS],
    n: usize,
}

impl Product {
    /// From what the minimiser wrote: at most ten bytes, none above 2.
    pub(crate) fn from_bytes(written: &[u8]) -> Self {
        let mut bytes = [0; MOST_INPUTS];
        bytes[..written.len()].copy_from_slice(written);
        Product {
            bytes,
            n: written.len(),
        }
    }

    /// One byte for each input: 0 inverted literal, 1 plain literal, 2 absent.
    pub fn as_bytes(&self) -> &[u8] {
        &self.bytes[..self.n]
    }

    /// The literal of an input: `Some(true)` plain, `Some(false)` inverted, `None` if it is absent or there is no such input.
    pub fn literal(&self, input: usize) -> Option<bool> {
        match self.as_bytes().get(input)? {
            0 => Some(false),
            1 => Some(true),
            _ => None,
        }
    }

    /// Whether it contains a point.
    pub fn contains(&self, point: u16) -> bool {
        (0..self.n).all(|i| {
            self.literal(i)
                .is_none_or(|plain| plain == (point >> i & 1 == 1))
        })
    }
}

/// One character for each input: 0, 1 or -.
impl fmt::Display for Product {
    fn fmt(&self, f: &mut fmt::Formatter<'_>) -> fmt::Result {
        let cells: String = self
            .as_bytes()
            .iter()
            .map(|&byte| ['0', '1', '-'][usize::from(byte)])
            .collect();
        f.pad(&cells)
    }
}

impl fmt::Debug for Product {
    fn fmt(&self, f: &mut fmt::Formatter<'_>) -> fmt::Result {
        write!(f, "Product({self})")
    }
}
