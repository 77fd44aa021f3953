//! A proved minimiser and verifier for hazard-free two-level logic.
//!
//! There are n inputs, 1 to 10. A point is a number below 2^n in which input i has weight 2^i. A table has one byte for each point:
//! 0, 1, or 2 for don't care. A transition is `[start, end]`, two points that differ in at most five inputs; there are 0 to 64 of them.
//! A product is n bytes, input 0 first: 0 for an inverted literal, 1 for a plain one, 2 for none.
//!
//! [`minimise`] writes a hazard-free network in which no product can be dropped and none can be widened, or says why there is none.
//! [`verify`] passes exactly the hazard-free networks, and else names the first fault and shows it: by a run, an order of the [wires](Wire) in
//! which the output is wrong, or by a point where the network is wrong at rest. Both are proved for all arguments; this crate passes slices
//! to them and unpacks what they return.
//!
//! ```
//! // the product of inputs 0 and 1 has to stay while input 2 changes; the others hold the points 1 and 6, which no transition visits
//! let table = [0, 1, 0, 1, 0, 0, 1, 1];
//! let products = quiet::products(3, &table, &[[3, 7]])?;
//! let printed: Vec<String> = products.iter().map(|p| p.to_string()).collect();
//! assert_eq!(printed, ["11-", "1-0", "-11"]);
//! let network = [1, 1, 2, 1, 2, 0, 2, 1, 1];
//! assert_eq!(quiet::verify(3, &table, &[[3, 7]], &network)?, quiet::Verdict::Passed);
//! # Ok::<(), quiet::Refusal>(())
//! ```
//!
//! No network is hazard-free for both of these transitions: the required cube {2, 3} has to take in 6, and then contains the zero 7.
//!
//! ```
//! let table = [0, 2, 1, 1, 1, 2, 1, 0];
//! let refusal = quiet::products(3, &table, &[[2, 7], [6, 0]]).unwrap_err();
//! assert_eq!(
//!     refusal,
//!     quiet::Refusal::Blocked { transition: 0, label: 3, steps: 1, lowest_zero: 7 }
//! );
//! assert_eq!(
//!     refusal.to_string(),
//!     "refusal 10: a required cube blocks: transition 0, label 3, steps 1, lowest zero 7"
//! );
//! ```

//! With no transition at all the problem is the classical one: the products are prime implicants, none of which can be left out. There
//! always is such a network, and [`verify`] passes exactly those with the table's values.
//!
//! ```
//! let table = [0, 1, 0, 1, 0, 0, 1, 1];
//! let products = quiet::products(3, &table, &[])?;
//! let printed: Vec<String> = products.iter().map(|p| p.to_string()).collect();
//! assert_eq!(printed, ["1-0", "-11"]);
//! assert_eq!(quiet::verify(3, &table, &[], &[1, 2, 0, 2, 1, 1])?, quiet::Verdict::Passed);
//! # Ok::<(), quiet::Refusal>(())
//! ```

pub mod packed;
mod product;
mod refusal;
mod verdict;
mod wire;

pub use product::Product;
pub use refusal::Refusal;
pub use verdict::Verdict;
pub use wire::Wire;

/// A start point and an end point, which differ in at most [`MOST_MOVING`] inputs.
pub type Transition = [u16; 2];

/// The most inputs.
pub const MOST_INPUTS: usize = 10;

/// The most inputs that a transition changes.
pub const MOST_MOVING: u32 = 5;

/// No problem has more required cubes, and no minimal network more products. A buffer of n times as many bytes is always long enough.
pub const MOST_REQUIRED: usize = 3072;

/// The most products of a network that is verified.
pub const MOST_PRODUCTS: usize = 3072;

/// No network that is verified has more literals, so no run more wires. A buffer of twice as many numbers is always long enough.
pub const MOST_WIRES: usize = MOST_INPUTS * MOST_PRODUCTS;

/// Writes a minimal hazard-free network into `cover`, one product of n bytes after another, and returns how many there are.
///
/// The products stand in ascending order of their bytes, compared from input 0 on, so an absent literal (2, printed `-`) comes after both
/// others. Bytes after the last product keep their contents, and so does the whole buffer after a refusal. The buffer has to have n bytes
/// for each required cube; each 1 that no transition visits is one. With no transition and no 1 in the table it may be empty.
///
/// ```
/// let mut cover = [9; 6];
/// assert_eq!(quiet::minimise(2, &[1, 1, 1, 0], &[[0, 3]], &mut cover), Ok(2));
/// assert_eq!(cover, [0, 2, 2, 0, 9, 9]);
/// assert_eq!(quiet::minimise(2, &[0, 2, 2, 0], &[], &mut []), Ok(0));
/// ```
pub fn minimise(
    n: usize,
    table: &[u8],
    transitions: &[Transition],
    cover: &mut [u8],
) -> Result<usize, Refusal> {
    Refusal::unpacked(packed::minimise(
        n,
        table,
        transitions.as_flattened(),
        cover,
    ))
}

/// The products of a minimal hazard-free network, in ascending order, in a vector of their own.
pub fn products(
    n: usize,
    table: &[u8],
    transitions: &[Transition],
) -> Result<Vec<Product>, Refusal> {
    let mut cover = vec![0; n.min(MOST_INPUTS) * MOST_REQUIRED];
    let count = minimise(n, table, transitions, &mut cover)?;
    let bytes = &cover[..n * count];
    Ok(bytes.chunks_exact(n).map(Product::from_bytes).collect())
}

/// Whether a network, products of n bytes one after another, is hazard-free for the table and the transitions: passed, or the first
/// fault, with what shows it. A 1 that no transition visits has no transition: where it is left uncovered, their number is named, which is
/// 0 for an empty list. A caller tells it from a transition by the length of the list.
///
/// Here the output has to stay 1, and is 0 while one wire has moved and the other has not:
///
/// ```
/// use quiet::{Verdict, Wire};
/// let table = [0, 1, 0, 1, 0, 0, 1, 1];
/// let run = vec![Wire { product: 0, input: 2 }, Wire { product: 1, input: 2 }];
/// assert_eq!(
///     quiet::verify(3, &table, &[[3, 7]], &[1, 2, 0, 2, 1, 1]),
///     Ok(Verdict::Uncovered { transition: 0, label: 7, run: Some(run) })
/// );
/// ```
///
/// Here it has to fall once, and is 1, 1, 0, 1, 0: product 0 comes on when both others are off.
///
/// ```
/// # use quiet::{Verdict, Wire};
/// let table = [0, 2, 1, 1, 1, 2, 1, 0];
/// let network = [2, 1, 0, 0, 1, 2, 0, 2, 1];
/// let wires = [[1, 1], [2, 2], [0, 2], [0, 1]];
/// let run = wires.map(|[product, input]| Wire { product, input }).to_vec();
/// assert_eq!(
///     quiet::verify(3, &table, &[[2, 7], [6, 0]], &network),
///     Ok(Verdict::Intersects { product: 0, transition: 1, run })
/// );
/// ```
///
/// A run is empty where no wire moves: the output is 0 all the time. Where a label or point shows the fault at rest there is no run:
///
/// ```
/// # use quiet::Verdict;
/// let table = [0, 1, 0, 1, 0, 0, 1, 1];
/// assert_eq!(
///     quiet::verify(3, &table, &[[3, 7]], &[]),
///     Ok(Verdict::Uncovered { transition: 0, label: 7, run: Some(vec![]) })
/// );
/// assert_eq!(
///     quiet::verify(3, &table, &[[3, 7]], &[1, 1, 2]),
///     Ok(Verdict::Uncovered { transition: 1, label: 1, run: None })
/// );
/// assert_eq!(
///     quiet::verify(3, &table, &[], &[1, 2, 0]),
///     Ok(Verdict::Uncovered { transition: 0, label: 6, run: None })
/// );
/// assert_eq!(
///     quiet::verify(3, &table, &[[3, 7]], &[1, 2, 2]),
///     Ok(Verdict::HoldsZero { product: 0, point: 5 })
/// );
/// ```
pub fn verify(
    n: usize,
    table: &[u8],
    transitions: &[Transition],
    network: &[u8],
) -> Result<Verdict, Refusal> {
    // two numbers for each byte are what check 15 asks for; a network of more bytes is refused before it
    let mut wires = vec![0; 2 * network.len().min(MOST_WIRES)];
    let answer = packed::verify(n, table, transitions.as_flattened(), network, &mut wires);
    Verdict::unpacked(answer, table, transitions, &wires)
}
