//! Refusals.

/// A refusal: its number, and what it names. What it does not name is 0.
#[derive(Clone, Copy, Debug, Default, PartialEq, Eq)]
pub struct Refusal {
    pub number: u8,
    pub transition: u16,
    /// a label or a point
    pub point: u16,
    pub steps: u16,
    /// the lowest zero
    pub lowest: u16,
    pub product: u16,
}

impl Refusal {
    pub(crate) fn new(number: u8) -> Self {
        Refusal {
            number,
            ..Refusal::default()
        }
    }

    pub(crate) fn at(number: u8, transition: usize, point: u16) -> Self {
        Refusal {
            transition: transition as u16,
            point,
            ..Refusal::new(number)
        }
    }
}
