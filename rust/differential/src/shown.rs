//! What has to show a fault.

use crate::replay::{allowed, at_rest, outputs};
use fast::Verdict;
use problems::Problem;

#[derive(Clone, Copy, Debug, PartialEq, Eq)]
pub enum Shown {
    /// no fault
    Nothing,
    /// a point where the table has this value, and the network gives the other at rest
    Point { point: u16, value: u8 },
    /// a run of the transition with these ends, whose outputs the values there do not allow
    Run { ends: [u16; 2], values: [u8; 2] },
}

impl Shown {
    pub fn of(problem: &Problem, verdict: Verdict) -> Shown {
        match verdict {
            Verdict::Passed => Shown::Nothing,
            Verdict::HoldsZero { point, .. } => Shown::Point { point, value: 0 },
            Verdict::Intersects { transition, .. } => {
                Shown::run(problem, transition).expect("a transition of the list")
            }
            Verdict::Uncovered { transition, label } => match Shown::run(problem, transition) {
                Some(run @ Shown::Run { values: [1, 1], .. }) => run,
                _ => Shown::Point {
                    point: label,
                    value: 1,
                },
            },
        }
    }

    /// None if the transition is not one of the list.
    fn run(problem: &Problem, transition: u16) -> Option<Shown> {
        let mut pairs = problem.transitions.chunks_exact(2);
        let pair = pairs.nth(usize::from(transition))?;
        let ends = [pair[0], pair[1]];
        let values = ends.map(|end| problem.table[usize::from(end)]);
        Some(Shown::Run { ends, values })
    }

    /// Whether the fault is there: the difference at rest, or a run of these wires. What is no run has no wires.
    pub fn check(&self, problem: &Problem, network: &[u8], wires: &[u16]) -> Result<(), String> {
        let holds = match *self {
            Shown::Nothing => wires.is_empty(),
            Shown::Point { point, value } => {
                wires.is_empty()
                    && problem.table[usize::from(point)] == value
                    && at_rest(problem.n, network, point) == 1 - value
            }
            Shown::Run { ends, values } => {
                let outputs = outputs(problem.n, network, ends, wires)?;
                !allowed(values[0], values[1], &outputs)
            }
        };
        holds
            .then_some(())
            .ok_or_else(|| format!("{self:?} does not hold with the wires {wires:?}"))
    }
}
