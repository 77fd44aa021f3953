//! Checks 1 to 7 and 14, the OFF-set, the required and the privileged cubes.

use crate::cube::{lowest, write_ranked, Cube, Set, INPUT};
use crate::planes::planes;
use crate::refusal::Refusal;

/// The most inputs that a transition changes.
pub const MOST_MOVING: u32 = 5;

#[derive(Clone, Copy, Debug)]
pub struct Required {
    pub cube: Cube,
    pub transition: u16,
    pub label: u16,
}

#[derive(Clone, Copy, Debug)]
pub struct Privileged {
    pub cube: Cube,
    pub start: u16,
    pub transition: u16,
}

pub struct Problem {
    /// words of a set
    pub words: usize,
    pub zeros: Set,
    pub required: Vec<Required>,
    pub privileged: Vec<Privileged>,
}

/// The number of required cubes, or the refusal of checks 1 to 7 and 14.
pub fn required_count(n: usize, table: &[u8], transitions: &[u16]) -> Result<usize, Refusal> {
    Problem::read(n, table, transitions).map(|p| p.required.len())
}

/// The required cubes as products, in order, or the refusal of checks 1 to 7 and 14.
pub fn required_cubes(n: usize, table: &[u8], transitions: &[u16]) -> Result<Vec<u8>, Refusal> {
    let problem = Problem::read(n, table, transitions)?;
    let mut network = vec![0; n * problem.required.len()];
    for (r, bytes) in problem.required.iter().zip(network.chunks_exact_mut(n)) {
        write_ranked(r.cube.rank(), bytes);
    }
    Ok(network)
}

/// One move of one input among the six low ones: for a set, the points from which the move leads into it.
#[derive(Clone, Copy, Default)]
struct Move {
    shift: u32,
    /// places that the move leaves upwards, and downwards; one of them is 0
    up: u64,
    down: u64,
}

/// The moves of a transition from one end towards the other.
struct Moves {
    low: [Move; 6],
    lows: usize,
    /// the high inputs that move, as bits of a word's index, and their values before the move
    high: usize,
    before: usize,
}

impl Moves {
    fn new(from: u16, differ: u16) -> Self {
        let mut low = [Move::default(); 6];
        let mut lows = 0;
        for (i, input) in INPUT.iter().enumerate() {
            if differ >> i & 1 == 1 {
                let upwards = from >> i & 1 == 0;
                low[lows] = Move {
                    shift: 1 << i,
                    up: if upwards { !input } else { 0 },
                    down: if upwards { 0 } else { *input },
                };
                lows += 1;
            }
        }
        Moves {
            low,
            lows,
            high: usize::from(differ >> 6),
            before: usize::from(from >> 6),
        }
    }

    /// The points of a word from which some move leads into the set.
    fn leading_into(&self, set: &Set, word: usize) -> u64 {
        let here = set[word];
        let mut points = 0;
        for m in &self.low[..self.lows] {
            points |= ((here >> m.shift) & m.up) | ((here << m.shift) & m.down);
        }
        let mut left = self.high & !(word ^ self.before);
        while left != 0 {
            let bit = left & left.wrapping_neg();
            points |= set[(word ^ bit) & 15];
            left ^= bit;
        }
        points
    }
}

fn value(set: &Set, point: u16) -> bool {
    set[usize::from(point >> 6) & 15] >> (point & 63) & 1 == 1
}

impl Problem {
    pub fn read(n: usize, table: &[u8], transitions: &[u16]) -> Result<Self, Refusal> {
        if n == 0 || n > 10 {
            return Err(Refusal::new(1));
        }
        let points = 1 << n;
        if table.len() != points {
            return Err(Refusal::new(2));
        }
        let (mut ones, mut free, mut zeros) = ([0; 16], [0; 16], [0; 16]);
        if let Err(place) = planes(table, &mut ones, &mut free) {
            return Err(Refusal::at(3, 0, place as u16));
        }
        let words = points.div_ceil(64);
        for w in 0..words {
            zeros[w] = !(ones[w] | free[w]);
        }
        if points < 64 {
            zeros[0] &= (1 << points) - 1;
        }
        if transitions.len() % 2 == 1 || transitions.len() > 128 {
            return Err(Refusal::new(4));
        }
        let full = (points - 1) as u16;
        let outside = |pair: &[u16]| (pair[0] | pair[1]) > full;
        if let Some(k) = transitions.chunks_exact(2).position(outside) {
            return Err(Refusal::at(5, k, 0));
        }
        let wide = |pair: &[u16]| (pair[0] ^ pair[1]).count_ones() > MOST_MOVING;
        if let Some(k) = transitions.chunks_exact(2).position(wide) {
            return Err(Refusal::at(14, k, 0));
        }
        if free != [0; 16] {
            for (k, pair) in transitions.chunks_exact(2).enumerate() {
                let cube = Cube::spanned(pair[0], pair[1], full);
                if let Some(point) = cube.lowest_in(&free, words) {
                    return Err(Refusal::at(6, k, point));
                }
            }
        }
        let mut problem = Problem {
            words,
            zeros,
            required: Vec::with_capacity(256),
            privileged: Vec::with_capacity(64),
        };
        for (k, pair) in transitions.chunks_exact(2).enumerate() {
            problem.take(&ones, k, pair[0], pair[1], full)?;
        }
        problem.take_unvisited(&ones, transitions, full);
        Ok(problem)
    }

    /// The ones that no transition visits are required cubes of their own, with the number of transitions.
    fn take_unvisited(&mut self, ones: &Set, transitions: &[u16], full: u16) {
        let mut left = *ones;
        for pair in transitions.chunks_exact(2) {
            let cube = Cube::spanned(pair[0], pair[1], full);
            let low = cube.low();
            for w in cube.words(self.words) {
                left[w] &= !low;
            }
        }
        for (w, mut points) in left.into_iter().enumerate() {
            while points != 0 {
                let point = (64 * w) as u16 + points.trailing_zeros() as u16;
                points &= points - 1;
                self.required.push(Required {
                    cube: Cube::spanned(point, point, full),
                    transition: (transitions.len() / 2) as u16,
                    label: point,
                });
            }
        }
    }

    /// Check 7 of a transition, and its cubes.
    fn take(&mut self, ones: &Set, k: usize, a: u16, b: u16, full: u16) -> Result<(), Refusal> {
        let cube = Cube::spanned(a, b, full);
        let refused = |point| Err(Refusal::at(7, k, point));
        let required = |cube, label| Required {
            cube,
            transition: k as u16,
            label,
        };
        match (value(ones, a), value(ones, b)) {
            (true, true) => {
                if let Some(point) = cube.lowest_in(&self.zeros, self.words) {
                    return refused(point);
                }
                self.required.push(required(cube, b));
                return Ok(());
            }
            (false, false) => {
                if let Some(point) = cube.lowest_in(ones, self.words) {
                    return refused(point);
                }
                return Ok(());
            }
            _ => {}
        }
        let fall = value(ones, a);
        // the start point is the end with value 1, and a label's moves away from it lead to 0 only
        let start = if fall { a } else { b };
        let away = Moves::new(start, a ^ b);
        let onwards = Moves::new(a, a ^ b);
        let low = cube.low();
        for w in cube.words(self.words) {
            let here = ones[w] & low;
            let near = away.leading_into(ones, w);
            let wrong = if fall {
                self.zeros[w] & low & near
            } else {
                here & onwards.leading_into(&self.zeros, w)
            };
            if let Some(point) = lowest(w, wrong) {
                return refused(point);
            }
            let mut labels = here & !near;
            while labels != 0 {
                let label = (64 * w) as u16 + labels.trailing_zeros() as u16;
                labels &= labels - 1;
                self.required
                    .push(required(Cube::spanned(start, label, full), label));
            }
        }
        self.privileged.push(Privileged {
            cube,
            start,
            transition: k as u16,
        });
        Ok(())
    }
}
