//! Arguments, good and damaged.

use problems::{accepted, layers, threshold, Problem, Rng, Shape, MOST_LAYERED};

/// Mostly few inputs, so that there are many calls.
fn inputs(rng: &mut Rng) -> usize {
    match rng.below(100) {
        0..=69 => 1 + rng.below(5),
        70..=89 => 6 + rng.below(2),
        90..=97 => 8 + rng.below(2),
        _ => 10,
    }
}

fn transition_count(rng: &mut Rng) -> usize {
    match rng.below(20) {
        0 => 0,
        1..=9 => 1 + rng.below(3),
        10..=17 => 1 + rng.below(12),
        18 => 1 + rng.below(64),
        _ => 64,
    }
}

/// The most inputs that the transitions of a problem change: seldom more than the limit.
fn widest(rng: &mut Rng, n: usize) -> usize {
    let most = match rng.below(20) {
        0 => n,
        _ => n.min(fast::MOST_MOVING as usize),
    };
    1 + rng.below(most)
}

/// The end of a transition from this point: any, or one that changes inputs up to the limit.
fn end(rng: &mut Rng, n: usize, a: u16) -> u16 {
    if rng.below(8) == 0 {
        return rng.below(1 << n) as u16;
    }
    let mut b = a;
    for _ in 0..rng.below(fast::MOST_MOVING as usize + 1) {
        b ^= 1 << rng.below(n);
    }
    b
}

/// A problem of any family.
pub fn problem(rng: &mut Rng) -> Problem {
    match rng.below(100) {
        0..=48 => consistent(rng),
        49..=53 => plain(rng),
        54..=63 => crowded(rng),
        64..=83 => {
            let mut p = consistent(rng);
            for _ in 0..1 + rng.below(3) {
                damage(rng, &mut p);
            }
            p
        }
        84..=90 => random(rng),
        91..=98 => structured(rng),
        _ => many_required(rng),
    }
}

/// Checks 1 to 7 pass, and mostly 14.
fn consistent(rng: &mut Rng) -> Problem {
    let n = inputs(rng);
    let shape = Shape {
        n,
        transitions: transition_count(rng),
        widest: widest(rng, n),
        corners: 1 + rng.below(6),
        dont_cares: rng.pick(&[0, 20, 50, 80, 95, 100]),
        zeros: rng.pick(&[0, 2, 10, 50]),
    };
    accepted(rng, &shape)
}

/// Few transitions or none, and no don't cares: most ones are visited by none.
fn plain(rng: &mut Rng) -> Problem {
    let n = inputs(rng);
    let shape = Shape {
        n,
        transitions: rng.below(5),
        widest: widest(rng, n),
        corners: 1 + rng.below(6),
        dont_cares: 0,
        zeros: rng.pick(&[5, 50, 90]),
    };
    accepted(rng, &shape)
}

/// Many transitions at more inputs, so that growth takes several steps.
fn crowded(rng: &mut Rng) -> Problem {
    let n = 5 + rng.below(5);
    let shape = Shape {
        n,
        transitions: 10 + rng.below(30),
        widest: 3 + rng.below(3),
        corners: 1 + rng.below(4),
        dont_cares: rng.pick(&[95, 100]),
        zeros: rng.pick(&[0, 1]),
    };
    accepted(rng, &shape)
}

/// Any values, any transitions.
fn random(rng: &mut Rng) -> Problem {
    let n = inputs(rng);
    let values = rng.pick(&[2, 3]);
    let table = (0..1 << n).map(|_| rng.below(values) as u8).collect();
    let mut transitions = Vec::new();
    for _ in 0..transition_count(rng) {
        let a = rng.below(1 << n) as u16;
        transitions.extend([a, end(rng, n, a)]);
    }
    Problem {
        n,
        table,
        transitions,
    }
}

/// A constant, one input, a threshold or a parity, with transitions that mostly switch inputs one way.
fn structured(rng: &mut Rng) -> Problem {
    let n = inputs(rng);
    let kind = rng.below(5);
    let level = rng.below(n + 1) as u32;
    let table = (0..1u32 << n)
        .map(|p| match kind {
            0 => 0,
            1 => 1,
            2 => (p >> (level as usize % n) & 1) as u8,
            3 => u8::from(p.count_ones() <= level),
            _ => (p.count_ones() & 1) as u8,
        })
        .collect();
    let mut transitions = Vec::new();
    for _ in 0..transition_count(rng) {
        let a = rng.below(1 << n) as u16;
        let b = end(rng, n, a);
        let pair = match rng.below(8) {
            0 => [a, b],
            1..=4 => [a, a | b],
            _ => [a, a & b],
        };
        transitions.extend(pair);
    }
    Problem {
        n,
        table,
        transitions,
    }
}

/// Many required cubes, up to as many as there can be.
fn many_required(rng: &mut Rng) -> Problem {
    match rng.below(3) {
        0 => layers(MOST_LAYERED - rng.below(3)),
        1 => layers(10 + rng.below(MOST_LAYERED - 9)),
        _ => {
            let required = 1 + rng.below(600);
            threshold(rng, required)
        }
    }
}

/// One thing made wrong, or at least changed.
fn damage(rng: &mut Rng, p: &mut Problem) {
    let n = p.n;
    match rng.below(14) {
        0 => p.n = rng.pick(&[0, n.saturating_sub(1), n + 1, 11, 12, 64, usize::MAX]),
        1 => {
            p.table.pop();
        }
        2 => p.table.push(rng.below(3) as u8),
        3 => p.table.truncate(rng.below(p.table.len() + 1)),
        4 | 5 => {
            for _ in 0..1 + rng.below(3) {
                if !p.table.is_empty() {
                    let at = rng.below(p.table.len());
                    p.table[at] = rng.pick(&[3, 4, 128, 255]);
                }
            }
        }
        6 => match rng.below(4) {
            0 => p.transitions.clear(),
            1 => {
                p.transitions.pop();
            }
            2 => p.transitions.push(0),
            _ => {
                let length = rng.pick(&[126, 127, 128, 129, 130, 200]);
                let list: Vec<u16> = p.transitions.iter().copied().cycle().take(length).collect();
                p.transitions = list;
            }
        },
        7 | 8 => {
            for _ in 0..1 + rng.below(2) {
                if !p.transitions.is_empty() {
                    let at = rng.below(p.transitions.len());
                    let bound = 1usize << n.min(15);
                    p.transitions[at] = rng.pick(&[bound, bound + 1, 2 * bound, 65535]) as u16;
                }
            }
        }
        // a value in a transition cube, so that check 6 or 7 applies
        9 | 10 => {
            if let (pairs, []) = p.transitions.as_chunks::<2>() {
                if !pairs.is_empty() {
                    let [a, b] = rng.pick(pairs);
                    let point = usize::from(a ^ ((a ^ b) & rng.next() as u16));
                    if point < p.table.len() {
                        p.table[point] = rng.below(3) as u8;
                    }
                }
            }
        }
        // six inputs changed, so that check 14 applies
        11 => {
            if let (pairs, []) = p.transitions.as_chunks_mut::<2>() {
                if !pairs.is_empty() && n >= 6 {
                    let at = rng.below(pairs.len());
                    pairs[at][1] = pairs[at][0] ^ (63 << rng.below(n.min(10) - 5));
                }
            }
        }
        12 => {
            if !p.table.is_empty() {
                let at = rng.below(p.table.len());
                p.table[at] = rng.below(3) as u8;
            }
        }
        _ => {
            if !p.transitions.is_empty() && n <= 10 {
                let at = rng.below(p.transitions.len());
                p.transitions[at] = rng.below(1 << n) as u16;
            }
        }
    }
}

/// Buffer lengths: exact, one short, longer, empty, any.
pub fn buffer_length(rng: &mut Rng, p: &Problem) -> usize {
    match fast::required_count(p.n, &p.table, &p.transitions) {
        Ok(count) => {
            let exact = p.n * count;
            match rng.below(10) {
                0 => exact.saturating_sub(1),
                1 => 0,
                2 => rng.below(exact + 1),
                3 | 4 => exact + 1 + rng.below(40),
                _ => exact,
            }
        }
        Err(_) => rng.below(60),
    }
}

/// Numbers that a wire buffer has to have: two for each input of each product.
pub fn wires_needed(n: usize, network: &[u8]) -> usize {
    2 * (network.len() - network.len() % n.max(1))
}

/// Wire buffer lengths: exact, one short, longer, empty, any.
pub fn wires_length(rng: &mut Rng, p: &Problem, network: &[u8]) -> usize {
    let exact = wires_needed(p.n, network);
    match rng.below(20) {
        0 => exact.saturating_sub(1),
        1 => 0,
        2 => rng.below(exact + 1),
        3..=5 => exact + 1 + rng.below(40),
        _ => exact,
    }
}

/// A network near the given one, or a random one.
pub fn network(rng: &mut Rng, p: &Problem, made: Option<&[u8]>) -> Vec<u8> {
    let n = p.n.clamp(1, 11);
    let mut network = match made {
        Some(made) if rng.below(4) > 0 => made.to_vec(),
        // the required cubes as they are: often (c) fails
        _ if rng.below(2) == 0 => {
            fast::required_cubes(p.n, &p.table, &p.transitions).unwrap_or_default()
        }
        _ => {
            let absent = rng.below(5);
            let count = rng.below(8);
            (0..n * count).map(|_| cell(rng, absent)).collect()
        }
    };
    for _ in 0..rng.pick(&[0, 1, 1, 1, 2, 3]) {
        change(rng, n, &mut network);
    }
    network
}

/// A literal, or none with the given weight.
fn cell(rng: &mut Rng, absent: usize) -> u8 {
    rng.below(2 + absent).min(2) as u8
}

fn change(rng: &mut Rng, n: usize, network: &mut Vec<u8>) {
    match rng.below(18) {
        way @ 0..=5 => change_cell(rng, way, network),
        way @ 6..=11 => change_products(rng, way, n, network),
        way @ 12..=15 => damage_network(rng, way, n, network),
        way => halve_products(rng, way, n, network),
    }
}

/// Any cell; or a literal more, so that a product may fail to hold a cube or to contain a start point.
fn change_cell(rng: &mut Rng, way: usize, network: &mut [u8]) {
    if network.is_empty() {
        return;
    }
    let at = rng.below(network.len());
    if way <= 3 {
        network[at] = rng.below(3) as u8;
    } else if network[at] == 2 {
        network[at] = rng.below(2) as u8;
    }
}

/// A product out, in, or twice; or all in another order.
fn change_products(rng: &mut Rng, way: usize, n: usize, network: &mut Vec<u8>) {
    let count = network.len() / n;
    match way {
        6 | 7 if count > 0 => {
            let j = rng.below(count);
            network.drain(n * j..n * (j + 1));
        }
        8 | 9 => {
            let absent = rng.below(4);
            let product: Vec<u8> = (0..n).map(|_| cell(rng, absent)).collect();
            let at = n * rng.below(count + 1);
            network.splice(at..at, product);
        }
        10 if count > 0 => {
            let j = rng.below(count);
            network.extend_from_within(n * j..n * (j + 1));
        }
        11 if count > 1 => network.rotate_left(n * rng.below(count)),
        _ => {}
    }
}

/// What checks 11 and 12 find, and what is just short of it.
fn damage_network(rng: &mut Rng, way: usize, n: usize, network: &mut Vec<u8>) {
    let count = network.len() / n;
    match way {
        12 => {
            network.pop();
        }
        13 => network.push(2),
        14 if count > 0 => {
            for _ in 0..1 + rng.below(2) {
                let at = rng.below(network.len());
                network[at] = rng.pick(&[3, 4, 7, 255]);
            }
        }
        // the long networks are dear, so there are few
        15 if count > 0 && rng.below(40) == 0 => {
            let most = fast::MOST_PRODUCTS;
            let length = n * rng.pick(&[most - 1, most, most, most + 1]);
            let long: Vec<u8> = network.iter().copied().cycle().take(length).collect();
            *network = long;
        }
        _ => {}
    }
}

/// One product in two halves, or all. At rest the halves give the same, but a cube that takes both lies in no single product.
fn halve_products(rng: &mut Rng, way: usize, n: usize, network: &mut Vec<u8>) {
    let count = network.len() / n;
    if way == 17 {
        let input = rng.below(n);
        (0..count).for_each(|product| halve(network, n, product, input));
    } else if count > 0 {
        halve(network, n, rng.below(count), rng.below(n));
    }
}

/// A product in two halves, if it has no literal on the input.
fn halve(network: &mut Vec<u8>, n: usize, product: usize, input: usize) {
    let start = n * product;
    if network[start + input] == 2 {
        network[start + input] = 0;
        let half = network.len();
        network.extend_from_within(start..start + n);
        network[half + input] = 1;
    }
}
