//! Refusals.

use crate::packed::field;
use crate::{MOST_MOVING, MOST_PRODUCTS};
use std::error::Error;
use std::fmt;

/// Why a call was refused. The checks run in this order, and the first that applies is returned.
///
/// There is no 8, more than [`MOST_REQUIRED`](crate::MOST_REQUIRED) required cubes: no problem has so many.
#[derive(Clone, Copy, Debug, PartialEq, Eq, Hash)]
#[non_exhaustive]
pub enum Refusal {
    /// 1: n is 0 or above 10.
    Inputs,
    /// 2: the table's length is not 2^n.
    TableLength,
    /// 3: a table byte above 2, the lowest such point.
    TableByte { point: u16 },
    /// 4: the list of transitions is odd, or above 64 transitions. An empty one is taken.
    TransitionList,
    /// 5: a start or end point is at least 2^n, in the first such transition.
    EndPoint { transition: u16 },
    /// 14: a transition changes more than [`MOST_MOVING`] inputs, the first such transition.
    Burst { transition: u16 },
    /// 6: a don't care in a transition cube, the first transition and its lowest such point.
    DontCare { transition: u16, point: u16 },
    /// 7: the rule of a transition's kind is broken. The point is the wrong value of a static transition, or the one before the wrong
    /// move of a dynamic one.
    Rule { transition: u16, point: u16 },
    /// 9: minimiser: the buffer is shorter than n times the number of required cubes.
    Buffer,
    /// 10: minimiser: a required cube blocks, so no network is hazard-free. The first such cube is named by its transition and label,
    /// with the steps of its growth and the lowest zero that it ends at. The transition is always one of the list.
    Blocked {
        transition: u16,
        label: u16,
        steps: u16,
        lowest_zero: u16,
    },
    /// 11: verifier: the network's length is no multiple of n, or it has more than [`MOST_PRODUCTS`] products.
    NetworkLength,
    /// 12: verifier: a byte above 2 in the network, in the first such product.
    NetworkByte { product: u16 },
    /// 15: verifier: the wire buffer is shorter than 2 × n × products numbers. [`packed::verify`](crate::packed::verify) alone is lent one:
    /// [`verify`](crate::verify) has its own, which is long enough.
    WireBuffer,
}

impl Refusal {
    /// Its number, 1 to 15.
    pub fn number(&self) -> u8 {
        match self {
            Refusal::Inputs => 1,
            Refusal::TableLength => 2,
            Refusal::TableByte { .. } => 3,
            Refusal::TransitionList => 4,
            Refusal::EndPoint { .. } => 5,
            Refusal::Burst { .. } => 14,
            Refusal::DontCare { .. } => 6,
            Refusal::Rule { .. } => 7,
            Refusal::Buffer => 9,
            Refusal::Blocked { .. } => 10,
            Refusal::NetworkLength => 11,
            Refusal::NetworkByte { .. } => 12,
            Refusal::WireBuffer => 15,
        }
    }

    /// The minimiser's answer, unpacked.
    pub(crate) fn unpacked(answer: u64) -> Result<usize, Refusal> {
        let number = field(answer, 0, 8);
        if number == 0 {
            return Ok((answer >> 8) as usize);
        }
        let (transition, point) = (field(answer, 8, 16), field(answer, 24, 16));
        if number == 10 {
            return Err(Refusal::Blocked {
                transition,
                label: point,
                steps: field(answer, 40, 8),
                lowest_zero: field(answer, 48, 16),
            });
        }
        Err(Refusal::named(number, transition, point, 0))
    }

    /// A refusal other than 10.
    pub(crate) fn named(number: u16, transition: u16, point: u16, product: u16) -> Refusal {
        match number {
            1 => Refusal::Inputs,
            2 => Refusal::TableLength,
            3 => Refusal::TableByte { point },
            4 => Refusal::TransitionList,
            5 => Refusal::EndPoint { transition },
            14 => Refusal::Burst { transition },
            6 => Refusal::DontCare { transition, point },
            7 => Refusal::Rule { transition, point },
            9 => Refusal::Buffer,
            11 => Refusal::NetworkLength,
            12 => Refusal::NetworkByte { product },
            15 => Refusal::WireBuffer,
            _ => unreachable!("the calls give no other refusal"),
        }
    }
}

impl fmt::Display for Refusal {
    fn fmt(&self, f: &mut fmt::Formatter<'_>) -> fmt::Result {
        write!(f, "refusal {}: ", self.number())?;
        match self {
            Refusal::Inputs => f.write_str("n is 0 or above 10"),
            Refusal::TableLength => f.write_str("table length is not 2^n"),
            Refusal::TableByte { point } => write!(f, "a table byte above 2: point {point}"),
            Refusal::TransitionList => {
                f.write_str("transition list odd, or not of 0 to 64 transitions")
            }
            Refusal::EndPoint { transition } => {
                write!(f, "A or B at least 2^n: transition {transition}")
            }
            Refusal::Burst { transition } => {
                write!(f, "more than {MOST_MOVING} inputs change: transition {transition}")
            }
            Refusal::DontCare { transition, point } => {
                write!(f, "a 2 in some [A,B]: transition {transition}, point {point}")
            }
            Refusal::Rule { transition, point } => {
                write!(f, "the kind's rule is broken: transition {transition}, point {point}")
            }
            Refusal::Buffer => f.write_str("buffer shorter than n × required cubes"),
            Refusal::Blocked {
                transition,
                label,
                steps,
                lowest_zero,
            } => write!(
                f,
                "a required cube blocks: transition {transition}, label {label}, steps {steps}, lowest zero {lowest_zero}"
            ),
            Refusal::NetworkLength => {
                write!(f, "network length no multiple of n, or above {MOST_PRODUCTS} products")
            }
            Refusal::NetworkByte { product } => {
                write!(f, "a network byte above 2: product {product}")
            }
            Refusal::WireBuffer => f.write_str("wire buffer shorter than 2 × n × products"),
        }
    }
}

impl Error for Refusal {}
