//! Inputs.

use crate::exact::fewest;
use problems::{accepted, layers, threshold, Problem, Rng, Shape, MOST_LAYERED};

pub struct Case {
    pub problem: Problem,
    /// for the minimiser: long enough
    pub buffer: Vec<u8>,
    /// for the verifier: one that passes, so that all three conditions are tried to the end
    pub network: Vec<u8>,
    /// for the verifier: just long enough for a run, though a network that passes has none
    pub wires: Vec<u16>,
    required: usize,
}

pub struct Cases {
    pub name: String,
    pub cases: Vec<Case>,
}

impl Cases {
    fn mean(&self, of: impl Fn(&Case) -> usize) -> f64 {
        self.cases.iter().map(of).sum::<usize>() as f64 / self.cases.len() as f64
    }

    pub fn required(&self) -> f64 {
        self.mean(|c| c.required)
    }

    /// Products that the proved, the independent and the joining minimiser write.
    pub fn products(&self) -> [f64; 3] {
        [0, 1, 2].map(|k| self.mean(|c| c.products()[k]))
    }

    /// The least number of products.
    pub fn fewest(&self) -> f64 {
        self.mean(|c| fewest(&c.problem, c.products()[0]))
    }

    /// Products that the verifier reads.
    pub fn network(&self) -> f64 {
        self.mean(|c| c.network.len() / c.problem.n)
    }
}

impl Case {
    /// None if the problem is refused. The independent implementation makes the network, so that the proved one runs only when it is timed.
    fn new(problem: Problem) -> Option<Case> {
        let Problem {
            n,
            table,
            transitions,
        } = &problem;
        let required = fast::required_count(*n, table, transitions).ok()?;
        let mut buffer = vec![0; n * required];
        let products = fast::minimise(*n, table, transitions, &mut buffer).ok()?;
        let network = buffer[..n * products].to_vec();
        let wires = vec![0; 2 * network.len()];
        Some(Case {
            problem,
            buffer,
            network,
            wires,
            required,
        })
    }

    fn products(&self) -> [usize; 3] {
        let Problem {
            n,
            table,
            transitions,
        } = &self.problem;
        let mut buffer = self.buffer.clone();
        [
            (quiet::packed::minimise(*n, table, transitions, &mut buffer) >> 8) as usize,
            fast::minimise(*n, table, transitions, &mut buffer).unwrap_or(0),
            fast::minimise_joining(*n, table, transitions, &mut buffer).unwrap_or(0),
        ]
    }

    /// The network made as long as it may be by its first product, put in front. Every other required cube is found at the end only.
    fn lengthened(mut self) -> Case {
        let n = self.problem.n;
        let mut long = Vec::new();
        for _ in self.network.len() / n..quiet::MOST_PRODUCTS {
            long.extend_from_slice(&self.network[..n]);
        }
        long.extend_from_slice(&self.network);
        self.wires = vec![0; 2 * long.len()];
        self.network = long;
        self
    }
}

/// Random problems with a hazard-free network.
fn random(name: String, seed: u64, shape: &Shape, count: usize) -> Cases {
    let mut rng = Rng::new(seed);
    let mut cases = Vec::new();
    while cases.len() < count {
        cases.extend(Case::new(accepted(&mut rng, shape)));
    }
    Cases { name, cases }
}

fn shape(n: usize, transitions: usize) -> Shape {
    Shape {
        n,
        transitions,
        // wider transitions mostly leave no hazard-free network
        widest: 4,
        corners: 6,
        dont_cares: 90,
        zeros: 5,
    }
}

/// Few transitions, and half of the points 1.
fn plain(n: usize) -> Shape {
    Shape {
        n,
        transitions: 4,
        widest: 4,
        corners: 6,
        dont_cares: 0,
        zeros: 50,
    }
}

/// Problems with many required cubes, and the longest networks.
fn long(name: String, problems: impl Iterator<Item = Problem>) -> Cases {
    let cases = problems.map(|p| Case::new(p).expect("a network").lengthened());
    Cases {
        name,
        cases: cases.collect(),
    }
}

/// Different falls.
fn falls(required: usize) -> Cases {
    let mut rng = Rng::new(3);
    let problems = (0..2).map(|_| threshold(&mut rng, required));
    long(required.to_string(), problems)
}

/// One fall, many times, and single points.
fn layered(name: String, required: usize) -> Cases {
    long(name, std::iter::once(layers(required)))
}

pub const KINDS: [&str; 4] = ["typical", "large", "plain", "worst"];

pub fn kind(name: &str) -> Cases {
    match name {
        "typical" => random(name.into(), 1, &shape(8, 20), 40),
        "large" => random(name.into(), 2, &shape(10, 64), 40),
        "plain" => random(name.into(), 6, &plain(10), 20),
        "worst" => layered(name.into(), MOST_LAYERED),
        _ => panic!("typical, large, plain or worst"),
    }
}

/// Problems of few inputs, with and without transitions that change several of them, for the exact minimum.
pub fn small() -> Vec<Cases> {
    let mut all = Vec::new();
    for n in [5, 6] {
        all.push(random(format!("plain, {n} inputs"), 7, &plain(n), 200));
        let mixed = Shape {
            dont_cares: 30,
            zeros: 35,
            ..shape(n, n)
        };
        all.push(random(
            format!("{n} transitions, {n} inputs"),
            8,
            &mixed,
            200,
        ));
    }
    all
}

pub fn growth_by_inputs() -> Vec<Cases> {
    (4..=10)
        .map(|n| random(n.to_string(), 4, &shape(n, 20), 20))
        .collect()
}

pub fn growth_by_transitions() -> Vec<Cases> {
    (0..=6)
        .map(|k| random((1 << k).to_string(), 5, &shape(8, 1 << k), 20))
        .collect()
}

pub fn growth_by_falls() -> Vec<Cases> {
    [32, 64, 128, 256, 512, 600].map(falls).into()
}

pub fn growth_by_required() -> Vec<Cases> {
    [64, 128, 256, 512, 1024, MOST_LAYERED]
        .map(|required| layered(required.to_string(), required))
        .into()
}
