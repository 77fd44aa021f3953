//! Tables and transitions for tests and benchmarks, from a seed.

mod rng;
pub use rng::Rng;

/// Table bytes, and transitions as start, end, start, end and so on.
#[derive(Clone, Debug)]
pub struct Problem {
    pub n: usize,
    pub table: Vec<u8>,
    pub transitions: Vec<u16>,
}

/// What a random problem looks like.
#[derive(Clone, Copy, Debug)]
pub struct Shape {
    pub n: usize,
    pub transitions: usize,
    /// the most inputs that a transition changes
    pub widest: usize,
    /// the most corners of the region where a dynamic transition still has its first value
    pub corners: usize,
    /// of the points that no transition visits: so many in a hundred are don't cares, and so many are zeros
    pub dont_cares: usize,
    pub zeros: usize,
}

/// No value yet.
const UNSET: u8 = 3;

/// A problem that checks 1 to 7 let through.
///
/// The transitions come first. Each gets values that keep its kind's rule and agree with what the table has so far: a static one the same
/// value everywhere, a dynamic one its first value in a region around its start that has no way back into it. One that finds none is
/// replaced by a transition that stays where it is.
pub fn accepted(rng: &mut Rng, shape: &Shape) -> Problem {
    let n = shape.n;
    let points = 1usize << n;
    let mut table = vec![UNSET; points];
    let mut transitions = Vec::with_capacity(2 * shape.transitions);
    for _ in 0..shape.transitions {
        let mut found = None;
        for _ in 0..8 {
            let a = rng.below(points);
            let mut differ = 0;
            for _ in 0..rng.below(shape.widest + 1) {
                differ |= 1 << rng.below(n);
            }
            if place(rng, &mut table, a, differ, shape.corners) {
                found = Some((a, a ^ differ));
                break;
            }
        }
        let (a, b) = found.unwrap_or_else(|| {
            let a = rng.below(points);
            if table[a] == UNSET {
                table[a] = rng.below(2) as u8;
            }
            (a, a)
        });
        transitions.extend([a as u16, b as u16]);
    }
    for value in &mut table {
        if *value == UNSET {
            let dice = rng.below(100);
            *value = if dice < shape.dont_cares {
                2
            } else {
                u8::from(dice >= shape.dont_cares + shape.zeros)
            };
        }
    }
    Problem {
        n,
        table,
        transitions,
    }
}

/// The submasks of a mask, in increasing order.
pub fn submasks(mask: usize) -> impl Iterator<Item = usize> {
    let mut next = Some(0usize);
    std::iter::from_fn(move || {
        let sub = next?;
        let after = sub.wrapping_sub(mask) & mask;
        next = (after != 0).then_some(after);
        Some(sub)
    })
}

/// Gives the points of a transition their values, if some kind's rule allows what the table has.
fn place(rng: &mut Rng, table: &mut [u8], a: usize, differ: usize, corners: usize) -> bool {
    let first = rng.below(2) as u8;
    if differ == 0 || rng.below(4) == 0 {
        let fits = submasks(differ).all(|s| [first, UNSET].contains(&table[a ^ s]));
        if fits {
            submasks(differ).for_each(|s| table[a ^ s] = first);
        }
        return fits;
    }
    let last = 1 - first;
    // moved inputs by point: where the first value has to be, since it comes again further on; where it is gone already; and where it
    // is wished for
    let mut needed = [false; 1024];
    let mut gone = [false; 1024];
    let mut wished = [false; 1024];
    for s in submasks(differ) {
        needed[s] = table[a ^ s] == first;
        gone[s] = table[a ^ s] == last;
    }
    for _ in 0..1 + rng.below(corners) {
        wished[rng.next() as usize & differ] = true;
    }
    for i in 0..10 {
        let bit = 1 << i;
        if differ & bit != 0 {
            for s in submasks(differ & !bit) {
                needed[s] |= needed[s | bit];
                wished[s] |= wished[s | bit];
                gone[s | bit] |= gone[s];
            }
        }
    }
    needed[0] = true;
    gone[differ] = true;
    if submasks(differ).any(|s| needed[s] && gone[s]) {
        return false;
    }
    for s in submasks(differ) {
        let keeps = needed[s] || (wished[s] && !gone[s]);
        table[a ^ s] = if keeps { first } else { last };
    }
    true
}

/// Ten inputs, value 1 where at most five are 1, and transitions that only switch inputs on, up to five: each falls, and has as many
/// required cubes as there are ways to reach five. Ones that no transition visits are don't cares, so only the transitions have required
/// cubes. Together they have the wished number of them, up to 600.
pub fn threshold(rng: &mut Rng, required: usize) -> Problem {
    let mut transitions = Vec::new();
    let mut push = |on: u32, more: u32, rng: &mut Rng| loop {
        let a = rng.below(1024) as u16;
        let b = a | rng.below(1024) as u16;
        if a.count_ones() == on && (a ^ b).count_ones() == more {
            transitions.extend([a, b]);
            break;
        }
    };
    let mut left = required;
    while left > 0 {
        // 10 = 5 over 2 = 5 over 3, 6 = 4 over 2, 3 = 3 over 1, 1 = 1 over 0
        let (count, on, more) = match left {
            10.. => (10, 2 + rng.below(2) as u32, 5),
            6.. => (6, 3, 4),
            3.. => (3, 4, 3),
            _ => (1, 5, 1),
        };
        push(on, more, rng);
        left -= count;
    }
    let mut table: Vec<u8> = (0..1024u32)
        .map(|p| if p.count_ones() <= 5 { 2 } else { 0 })
        .collect();
    for pair in transitions.chunks_exact(2) {
        let a = usize::from(pair[0]);
        for s in submasks(usize::from(pair[0] ^ pair[1])) {
            table[a ^ s] = u8::from((a ^ s).count_ones() <= 5);
        }
    }
    Problem {
        n: 10,
        table,
        transitions,
    }
}

/// The most required cubes that a problem can have: 64 transitions with ten, and 992 single points.
pub const MOST_LAYERED: usize = 1632;

/// Ten inputs. On the points 0 to 31 the value is 1 where at most two inputs are 1, so the transition from 0 to 31 has ten required cubes; it
/// comes up to 64 times. Of the other points some are 1, which no transition visits, and the rest don't cares. Together they have the wished
/// number of required cubes, from 10 to [`MOST_LAYERED`].
pub fn layers(required: usize) -> Problem {
    let count = (required / 10).min(64);
    let points = required - 10 * count;
    let table = (0..1024usize)
        .map(|p| match p {
            ..32 => u8::from(p.count_ones() <= 2),
            _ if p < 32 + points => 1,
            _ => 2,
        })
        .collect();
    Problem {
        n: 10,
        table,
        transitions: [0, 31].repeat(count),
    }
}
