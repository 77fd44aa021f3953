//! Illegal intersections, and growth.

use crate::columns::{columns, lowest_bits};
use crate::cube::{Cube, Set};
use crate::problem::Problem;

/// What makes a product legal: the OFF-set, and the privileged cubes as the bits of words.
pub struct Legal<'a> {
    zeros: &'a Set,
    words: usize,
    /// by input and value: the privileged cubes that a literal keeps a product apart from
    apart: [[u64; 2]; 10],
    /// by input and value: those whose start point a literal keeps out
    lacks: [[u64; 2]; 10],
    starts: [u16; 64],
}

/// Where growth ends.
#[derive(Clone, Copy, Debug, PartialEq, Eq)]
pub enum Grown {
    Legal(Cube),
    Blocked { steps: u16, lowest: u16 },
}

impl<'a> Legal<'a> {
    pub fn new(problem: &'a Problem) -> Self {
        let privileged = &problem.privileged;
        let all = lowest_bits(privileged.len());
        let rows = columns(privileged.iter().map(|p| {
            let Cube { care, value } = p.cube;
            u64::from(value) | u64::from(care & !value) << 16 | u64::from(p.start) << 32
        }));
        let mut legal = Legal {
            zeros: &problem.zeros,
            words: problem.words,
            apart: [[0; 2]; 10],
            lacks: [[0; 2]; 10],
            starts: [0; 64],
        };
        for i in 0..10 {
            legal.apart[i] = [rows[i], rows[16 + i]];
            legal.lacks[i] = [rows[32 + i], all & !rows[32 + i]];
        }
        for (start, p) in legal.starts.iter_mut().zip(privileged) {
            *start = p.start;
        }
        legal
    }

    /// The lowest zero of a cube.
    pub fn lowest_zero(&self, cube: Cube) -> Option<u16> {
        cube.lowest_in(self.zeros, self.words)
    }

    /// The privileged cubes, as bits, that a cube intersects illegally.
    pub fn illegal(&self, cube: Cube) -> u64 {
        let (mut apart, mut lacks) = (0, 0);
        let mut left = cube.care;
        while left != 0 {
            let i = left.trailing_zeros() as usize;
            let b = usize::from(cube.value >> i & 1);
            apart |= self.apart[i][b];
            lacks |= self.lacks[i][b];
            left &= left - 1;
        }
        lacks & !apart
    }

    /// While the cube has no zero, the first start point that it lacks is taken in.
    pub fn grow(&self, mut cube: Cube) -> Grown {
        let mut steps = 0;
        loop {
            if let Some(lowest) = self.lowest_zero(cube) {
                return Grown::Blocked { steps, lowest };
            }
            let illegal = self.illegal(cube);
            if illegal == 0 {
                return Grown::Legal(cube);
            }
            cube = cube.with(self.starts[illegal.trailing_zeros() as usize]);
            steps += 1;
        }
    }

    /// A legal cube widened until no legal cube is larger. A literal that cannot be raised now cannot be raised in a larger cube, so
    /// each is tried once.
    pub fn widen(&self, mut cube: Cube) -> Cube {
        let mut left = cube.care;
        while left != 0 {
            let literal = left & left.wrapping_neg();
            if let Grown::Legal(wider) = self.grow(cube.without(literal)) {
                cube = wider;
            }
            left &= left - 1;
            left &= cube.care;
        }
        cube
    }
}
