//! K1 to K12 and the edges, through both implementations.

use differential::arguments::wires_needed;
use differential::{replay, same_minimise, same_verify, Tally};
use problems::{layers, threshold, Problem, Rng, MOST_LAYERED};

fn problem(table: &str, transitions: &[u16]) -> Problem {
    let table: Vec<u8> = table
        .bytes()
        .filter(|&b| b != b' ')
        .map(|b| if b == b'-' { 2 } else { b - b'0' })
        .collect();
    Problem {
        n: table.len().ilog2() as usize,
        table,
        transitions: transitions.to_vec(),
    }
}

/// What both minimisers answer: the products as they are written, or the refusal as it is printed.
fn minimised(p: &Problem) -> String {
    let length = p.n * quiet::MOST_REQUIRED;
    let mut rng = Rng::new(1);
    match same_minimise(&mut rng, &mut Tally::default(), p, length) {
        Some(network) => {
            let products: Vec<String> = network
                .chunks(p.n)
                .map(|product| product.iter().map(u8::to_string).collect())
                .collect();
            products.join(" ")
        }
        None => {
            let answer =
                quiet::packed::minimise(p.n, &p.table, &p.transitions, &mut vec![0; length]);
            let field = |from: u32, width: u32| answer >> from & ((1 << width) - 1);
            format!(
                "refused {} {} {} {} {}",
                field(0, 8),
                field(8, 16),
                field(24, 16),
                field(40, 8),
                field(48, 16)
            )
        }
    }
}

fn network_of(products: &[&str]) -> Vec<u8> {
    products
        .iter()
        .flat_map(|product| product.bytes().map(|b| b - b'0'))
        .collect()
}

/// What both verifiers answer with a wire buffer of some length: verdict, refusal, product, transition, point, wires.
fn verified_with(p: &Problem, products: &[&str], length: usize) -> [u64; 6] {
    let network = network_of(products);
    same_verify(&mut Rng::new(1), &mut Tally::default(), p, &network, length);
    let mut wires = vec![0; length];
    let answer = quiet::packed::verify(p.n, &p.table, &p.transitions, &network, &mut wires);
    [
        answer & 255,
        answer >> 8 & 255,
        answer >> 16 & 65535,
        answer >> 32 & 127,
        answer >> 39 & 1023,
        answer >> 49,
    ]
}

/// What both verifiers answer with a buffer that is just long enough: verdict, refusal, product, transition, point.
fn verified(p: &Problem, products: &[&str]) -> [u64; 5] {
    let length = wires_needed(p.n, &network_of(products));
    let [fields @ .., _] = verified_with(p, products, length);
    fields
}

/// The run that the proved verifier writes, product and input of each wire, and its outputs.
fn run(p: &Problem, products: &[&str]) -> (Vec<[u16; 2]>, Vec<u8>) {
    let [_, _, _, transition, _] = verified(p, products);
    let network = network_of(products);
    let mut wires = vec![0; wires_needed(p.n, &network)];
    let answer = quiet::packed::verify(p.n, &p.table, &p.transitions, &network, &mut wires);
    wires.truncate(2 * (answer >> 49) as usize);
    let (ends, _) = p.transitions.as_chunks::<2>();
    let outputs = replay::outputs(p.n, &network, ends[transition as usize], &wires);
    (
        wires.as_chunks::<2>().0.to_vec(),
        outputs.expect("every moving wire once"),
    )
}

#[test]
fn set_pieces() {
    let k2 = problem("1110", &[0, 3]);
    let k4 = problem("01010011", &[3, 7]);
    let k7 = problem("0-11 1-10", &[2, 7, 6, 0]);
    assert_eq!(minimised(&problem("11", &[0, 1])), "2");
    assert_eq!(minimised(&k2), "02 20");
    assert_eq!(minimised(&problem("0111", &[1, 2])), "refused 7 0 0 0 0");
    assert_eq!(minimised(&k4), "112 120 211");
    assert_eq!(verified(&k4, &["120", "211"]), [4, 0, 0, 0, 7]);
    assert_eq!(verified(&k4, &["120", "211", "112"]), [1, 0, 0, 0, 0]);
    assert_eq!(minimised(&k7), "refused 10 0 3 1 7");
    assert_eq!(minimised(&problem("0-11 1-1-", &[2, 3, 6, 0])), "212 221");
    assert_eq!(verified(&k7, &["210", "012", "021"]), [3, 0, 0, 1, 0]);
    assert_eq!(minimised(&problem("1-", &[0, 1])), "refused 6 0 1 0 0");
    assert_eq!(verified(&k2, &["22"]), [2, 0, 0, 0, 3]);
    assert_eq!(verified(&k2, &[]), [4, 0, 0, 0, 1]);
}

#[test]
fn runs_of_the_set_pieces() {
    let k4 = problem("01010011", &[3, 7]);
    let k5 = run(&k4, &["120", "211"]);
    assert_eq!(k5, (vec![[0, 2], [1, 2]], vec![1, 0, 1]));
    let k7 = problem("0-11 1-10", &[2, 7, 6, 0]);
    let k9 = run(&k7, &["210", "012", "021"]);
    let wires = vec![[1, 1], [2, 2], [0, 2], [0, 1]];
    assert_eq!(k9, (wires, vec![1, 1, 0, 1, 0]));
    // the same transition the other way round: a rise
    let back = problem("0-11 1-10", &[7, 2, 0, 6]);
    assert_eq!(verified(&back, &["210", "012", "021"]), [3, 0, 0, 1, 0]);
    let wires = vec![[0, 1], [0, 2], [1, 1], [2, 2]];
    let outputs = vec![0, 1, 0, 1, 1];
    assert_eq!(run(&back, &["210", "012", "021"]), (wires, outputs));
}

#[test]
fn empty_runs() {
    let empty = (vec![], vec![0]);
    // a transition that stays where it is
    let stays = problem("1001", &[3, 3]);
    assert_eq!(verified(&stays, &["00"]), [4, 0, 0, 0, 3]);
    assert_eq!(run(&stays, &["00"]), empty);
    // no literal on the input that moves, and no product at all
    let moves = problem("1111", &[2, 3]);
    assert_eq!(verified(&moves, &["20"]), [4, 0, 0, 0, 3]);
    assert_eq!(run(&moves, &["20"]), empty);
    assert_eq!(run(&moves, &[]), empty);
}

#[test]
fn differences_at_rest() {
    // at a fall, at a rise and at a point that no transition visits
    let k2 = problem("1110", &[0, 3]);
    assert_eq!(verified_with(&k2, &["02"], 4), [4, 0, 0, 0, 1, 0]);
    let rise = problem("1110", &[3, 0]);
    assert_eq!(verified_with(&rise, &["02"], 4), [4, 0, 0, 0, 1, 0]);
    let unvisited = problem("1110", &[0, 1]);
    assert_eq!(verified_with(&unvisited, &["20"], 4), [4, 0, 0, 1, 2, 0]);
    // past the list there is no transition, though the value at point 0 is 1
    let origin = problem("1001", &[0, 0]);
    assert_eq!(verified_with(&origin, &["00"], 4), [4, 0, 0, 1, 3, 0]);
    let alone = problem("1001", &[]);
    assert_eq!(verified_with(&alone, &["00"], 4), [4, 0, 0, 0, 3, 0]);
    // a 0 at which the network is 1
    assert_eq!(verified_with(&k2, &["22"], 4), [2, 0, 0, 0, 3, 0]);
}

#[test]
fn edges_of_the_wires() {
    let k4 = problem("01010011", &[3, 7]);
    let k5 = ["120", "211"];
    let taken = [4, 0, 0, 0, 7, 2];
    let short = [0, 15, 0, 0, 0, 0];
    assert_eq!(verified_with(&k4, &k5, 12), taken);
    assert_eq!(verified_with(&k4, &k5, 13), taken);
    for length in [0, 1, 4, 11] {
        assert_eq!(verified_with(&k4, &k5, length), short);
    }
    // a network that passes needs the buffer as well, and one without products none
    assert_eq!(verified_with(&k4, &["112", "120", "211"], 17), short);
    assert_eq!(verified_with(&k4, &[], 0), [4, 0, 0, 0, 7, 0]);
    // after the network's own checks
    assert_eq!(verified_with(&k4, &["12"], 0), [0, 11, 0, 0, 0, 0]);
    assert_eq!(verified_with(&k4, &["120", "213"], 0), [0, 12, 1, 0, 0, 0]);
}

#[test]
fn edges_of_the_fields() {
    let zeros = "0".repeat(1023);
    let lonely = problem(&format!("{zeros}1"), &[0].repeat(128));
    assert_eq!(verified_with(&lonely, &[], 0), [4, 0, 0, 64, 1023, 0]);
    let ones = "1".repeat(1023);
    let mut most = ["0000000000"; quiet::MOST_PRODUCTS];
    let last = most.len() as u64 - 1;
    let length = 2 * quiet::MOST_WIRES;
    most[last as usize] = "2222222222";
    let zero = problem(&format!("{ones}0"), &[]);
    assert_eq!(
        verified_with(&zero, &most, length)[..5],
        [2, 0, last, 0, 1023]
    );
    most[last as usize] = "2222222223";
    assert_eq!(verified_with(&zero, &most, length)[..3], [0, 12, last]);
    let above = problem(&format!("{ones}3"), &[]);
    assert_eq!(
        verified_with(&above, &most, length)[..5],
        [0, 3, 0, 0, 1023]
    );
}

#[test]
fn the_longest_run() {
    // five inputs move, and each product has a literal on each of them
    let ones = problem(&"1".repeat(1024), &[0, 31]);
    let most = ["1111111111"; quiet::MOST_PRODUCTS];
    let wires = 5 * quiet::MOST_PRODUCTS as u64;
    let length = 2 * quiet::MOST_WIRES;
    assert_eq!(verified_with(&ones, &most, length), [4, 0, 0, 0, 31, wires]);
    assert_eq!(verified_with(&ones, &most, length - 1)[1], 15);
}

#[test]
fn edges_of_the_inputs() {
    let ten = problem(&"1".repeat(1024), &[992, 1023]);
    assert_eq!(minimised(&ten), "2222222222");
    let eleven = problem(&"1".repeat(2048), &[992, 1023]);
    assert_eq!(minimised(&eleven), "refused 1 0 0 0 0");
}

#[test]
fn edges_of_the_transitions() {
    let transitions = |count: usize| [0, 1].repeat(count);
    assert_eq!(minimised(&problem("11", &[])), "2");
    assert_eq!(minimised(&problem("11", &[0])), "refused 4 0 0 0 0");
    assert_eq!(minimised(&problem("11", &transitions(64))), "2");
    assert_eq!(
        minimised(&problem("11", &transitions(65))),
        "refused 4 0 0 0 0"
    );
}

#[test]
fn edges_of_a_transition() {
    let ones = "1".repeat(64);
    assert_eq!(minimised(&problem(&ones, &[0, 31])), "222222");
    let six = "refused 14 1 0 0 0";
    assert_eq!(minimised(&problem(&ones, &[0, 31, 0, 63, 62, 1])), six);
    // after an end that is no point, before a don't care and before a broken rule
    let outside = "refused 5 1 0 0 0";
    assert_eq!(minimised(&problem(&ones, &[0, 63, 0, 64])), outside);
    let rest = "1".repeat(62);
    assert_eq!(
        minimised(&problem(&format!("1-{rest}"), &[0, 1, 0, 63])),
        six
    );
    assert_eq!(
        minimised(&problem(&format!("10{rest}"), &[0, 3, 0, 63])),
        six
    );
}

#[test]
fn most_required_cubes() {
    let most = layers(MOST_LAYERED);
    let count = fast::required_count(10, &most.table, &most.transitions);
    assert_eq!(count, Ok(MOST_LAYERED));
    assert!(!minimised(&most).starts_with("refused"));
    let mut rng = Rng::new(1);
    let falls = threshold(&mut rng, 600);
    let count = fast::required_count(10, &falls.table, &falls.transitions);
    assert_eq!(count, Ok(600));
}

#[test]
fn ones_that_no_transition_visits() {
    let k4 = problem("01010011", &[3, 7]);
    assert_eq!(verified(&k4, &["112"]), [4, 0, 0, 1, 1]);
    assert_eq!(verified(&k4, &["112", "120"]), [4, 0, 0, 1, 6]);
    // the number of transitions is no transition, whatever stands at point 0
    assert_eq!(
        verified(&problem("1001", &[0, 0]), &["00"]),
        [4, 0, 0, 1, 3]
    );
    assert_eq!(verified(&problem("0001", &[1, 1]), &[]), [4, 0, 0, 1, 3]);
    assert_eq!(
        verified(&problem("1001", &[3, 3]), &["11"]),
        [4, 0, 0, 1, 0]
    );
    assert_eq!(minimised(&problem("0110 1001", &[0, 0])), "001 010 100 111");
    assert_eq!(
        minimised(&problem(&"1".repeat(1024), &[0, 0])),
        "2222222222"
    );
}

#[test]
fn no_transition() {
    let k4 = problem("01010011", &[]);
    assert_eq!(minimised(&k4), "120 211");
    assert_eq!(verified(&k4, &["120", "211"]), [1, 0, 0, 0, 0]);
    // transition 0 is their number
    assert_eq!(verified(&k4, &["120"]), [4, 0, 0, 0, 6]);
    assert_eq!(verified(&k4, &["120", "212"]), [2, 0, 1, 0, 2]);
    let k7 = problem("0-11 1-10", &[]);
    assert_eq!(verified(&k7, &["210", "021"]), [1, 0, 0, 0, 0]);
    let nothing = problem("0--0", &[]);
    assert_eq!(minimised(&nothing), "");
    assert_eq!(verified(&nothing, &[]), [1, 0, 0, 0, 0]);
    assert_eq!(minimised(&problem(&"1".repeat(1024), &[])), "2222222222");
}

#[test]
fn edges_of_the_network() {
    let p = problem("11", &[0, 1]);
    let most = ["2"; quiet::MOST_PRODUCTS];
    assert_eq!(verified(&p, &most), [1, 0, 0, 0, 0]);
    let above = ["2"; quiet::MOST_PRODUCTS + 1];
    assert_eq!(verified(&p, &above), [0, 11, 0, 0, 0]);
    let odd = problem("1111", &[0, 1]);
    assert_eq!(verified(&odd, &["2"]), [0, 11, 0, 0, 0]);
    assert_eq!(verified(&odd, &["22", "23"]), [0, 12, 1, 0, 0]);
}
