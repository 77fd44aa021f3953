//! Wires.

/// The wire of a literal, named by its product's place in the network, from 0 on, and its input.
///
/// Where a transition moves the input, the wire sees the start point's value first, and then, once, the end point's.
#[derive(Clone, Copy, Debug, PartialEq, Eq, Hash)]
pub struct Wire {
    pub product: u16,
    pub input: u16,
}

impl Wire {
    /// From what the verifier wrote: two numbers for each wire.
    pub(crate) fn from_numbers(written: &[u16]) -> Vec<Wire> {
        written
            .chunks_exact(2)
            .map(|pair| Wire {
                product: pair[0],
                input: pair[1],
            })
            .collect()
    }
}
