//! The two calls as they are exported: a flat list of transitions, and the answer packed into a `u64`.
//!
//! | call | answer | bits |
//! |---|---|---|
//! | [`minimise`] | products | 0 to 7: 0; 8 to 63: how many |
//! | [`minimise`] | refusal | 0 to 7: its number; 8 to 23: transition; 24 to 39: label or point; 40 to 47: steps; 48 to 63: lowest zero |
//! | [`verify`] | verdict | 0 to 7: 0 refused, 1 passed, 2, 3, 4 the condition that fails; 8 to 15: the refusal's number; 16 to 31: product; 32 to 38: transition; 39 to 48: label or point; 49 to 63: how many wires |

use crate::Refusal;

mod exported {
    extern "C" {
        pub fn quiet_minimise(
            n: usize,
            table: *const u8,
            table_length: usize,
            transitions: *const u16,
            transitions_length: usize,
            cover: *mut u8,
            cover_length: usize,
        ) -> u64;

        pub fn quiet_verify(
            n: usize,
            table: *const u8,
            table_length: usize,
            transitions: *const u16,
            transitions_length: usize,
            network: *const u8,
            network_length: usize,
            wires: *mut u16,
            wires_length: usize,
        ) -> u64;
    }
}

/// [`crate::minimise`], with its answer packed.
pub fn minimise(n: usize, table: &[u8], transitions: &[u16], cover: &mut [u8]) -> u64 {
    // SAFETY: a pointer and a length pass for each slice, of which `cover` alone is written, and Rust lends it to this call only. An empty
    // slice's pointer is not null either. The call has no `requires`, keeps no pointer, and is proved to read and write inside the slices.
    unsafe {
        exported::quiet_minimise(
            n,
            table.as_ptr(),
            table.len(),
            transitions.as_ptr(),
            transitions.len(),
            cover.as_mut_ptr(),
            cover.len(),
        )
    }
}

/// [`crate::verify`], with its answer packed, and the run written into `wires`: a product and an input for each wire.
///
/// A buffer shorter than 2 × n × products numbers is refused, also for a network that would pass. Numbers after the last wire keep their
/// contents, and so does the whole buffer where there is no run, and after a refusal.
///
/// ```
/// let table = [0, 1, 0, 1, 0, 0, 1, 1];
/// let network = [1, 2, 0, 2, 1, 1];
/// let mut wires = [9; 12];
/// let answer = quiet::packed::verify(3, &table, &[3, 7], &network, &mut wires);
/// assert_eq!(answer, 4 + (7 << 39) + (2 << 49));
/// assert_eq!(wires, [0, 2, 1, 2, 9, 9, 9, 9, 9, 9, 9, 9]);
/// let answer = quiet::packed::verify(3, &table, &[3, 7], &network, &mut wires[..11]);
/// assert_eq!(quiet::packed::verify_refusal(answer), Some(quiet::Refusal::WireBuffer));
/// ```
pub fn verify(
    n: usize,
    table: &[u8],
    transitions: &[u16],
    network: &[u8],
    wires: &mut [u16],
) -> u64 {
    // SAFETY: a pointer and a length pass for each slice, of which `wires` alone is written, and Rust lends it to this call only. An empty
    // slice's pointer is not null either. The call has no `requires`, keeps no pointer, and is proved to read and write inside the slices.
    unsafe {
        exported::quiet_verify(
            n,
            table.as_ptr(),
            table.len(),
            transitions.as_ptr(),
            transitions.len(),
            network.as_ptr(),
            network.len(),
            wires.as_mut_ptr(),
            wires.len(),
        )
    }
}

/// The refusal, if an answer of [`verify`] is one.
pub fn verify_refusal(answer: u64) -> Option<Refusal> {
    (field(answer, 0, 8) == 0).then(|| {
        let (transition, point) = (field(answer, 32, 7), field(answer, 39, 10));
        Refusal::named(
            field(answer, 8, 8),
            transition,
            point,
            field(answer, 16, 16),
        )
    })
}

/// `width` bits of an answer, from bit `from` on.
pub(crate) fn field(answer: u64, from: u32, width: u32) -> u16 {
    (answer >> from & ((1 << width) - 1)) as u16
}
