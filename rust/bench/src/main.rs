//! The proved calls and the independent ones, timed on the same inputs in one run.
//!
//! Without arguments: all tables. `once IMPLEMENTATION CALL KIND TIMES` runs one of them alone, for counting instructions:
//! IMPLEMENTATION is `proved`, `independent`, `joining` or `none` (which only makes the inputs), CALL `minimise` or `verify`, KIND `typical`, `large`,
//! `plain` or `worst`. `fewest` counts products against the exact minimum.

mod cases;
mod exact;
mod timing;

use cases::{
    growth_by_falls, growth_by_inputs, growth_by_required, growth_by_transitions, kind, small,
    Cases, KINDS,
};
use timing::{run, Call, Implementation};

fn main() {
    let words: Vec<String> = std::env::args().skip(1).collect();
    let words: Vec<&str> = words.iter().map(String::as_str).collect();
    match words[..] {
        [] => tables(),
        ["fewest"] => products_table(),
        ["once", implementation, call, kind, times] => {
            once(implementation, call, kind, times.parse().expect("times"))
        }
        _ => panic!("nothing, fewest, or once IMPLEMENTATION CALL KIND TIMES"),
    }
}

fn once(implementation: &str, call: &str, name: &str, times: usize) {
    let call = match call {
        "minimise" => Call::Minimise,
        "verify" => Call::Verify,
        _ => panic!("minimise or verify"),
    };
    let implementation = match implementation {
        "proved" => Some(Implementation::Proved),
        "independent" => Some(Implementation::Independent),
        "joining" => Some(Implementation::Joining),
        "none" => None,
        _ => panic!("proved, independent, joining or none"),
    };
    let mut cases = kind(name);
    println!("calls {}", times * cases.cases.len());
    if let Some(implementation) = implementation {
        for _ in 0..times {
            run(implementation, call, &mut cases);
        }
    }
}

fn tables() {
    for call in [Call::Minimise, Call::Verify] {
        println!("{call:?}");
        table("kind of input", KINDS.map(kind).into(), call);
        table("inputs, 20 transitions", growth_by_inputs(), call);
        table("transitions, 8 inputs", growth_by_transitions(), call);
        table("required cubes of different falls", growth_by_falls(), call);
        table(
            "required cubes with single points",
            growth_by_required(),
            call,
        );
    }
    products_table();
}

/// Products of each minimiser in all problems of a kind, and the least number that there can be.
fn products_table() {
    println!("| problems | required cubes | fewest products | proved | ratio | independent | ratio | joining | ratio |");
    println!("|---|---|---|---|---|---|---|---|---|");
    for cases in small() {
        let fewest = cases.fewest();
        print!("| {} | {:.1} | {fewest:.2} |", cases.name, cases.required());
        for products in cases.products() {
            print!(" {products:.2} | {:.3} |", products / fewest);
        }
        println!();
    }
    println!();
}

fn table(title: &str, rows: Vec<Cases>, call: Call) {
    println!();
    match call {
        Call::Minimise => {
            println!("| {title} | required cubes | products (proved, independent, joining) | proved, µs | independent, µs | ratio | joining, µs | ratio |");
            println!("|---|---|---|---|---|---|---|---|");
        }
        Call::Verify => {
            println!(
                "| {title} | required cubes | products | proved, µs | independent, µs | ratio |"
            );
            println!("|---|---|---|---|---|---|");
        }
    }
    for mut cases in rows {
        let [proved, independent, joining] = timing::best(call, &mut cases);
        print!("| {} | {:.0} | ", cases.name, cases.required());
        match call {
            Call::Minimise => {
                let [p, i, j] = cases.products();
                print!("{p:.1}, {i:.1}, {j:.1}");
            }
            Call::Verify => print!("{:.0}", cases.network()),
        }
        print!(
            " | {proved:.2} | {independent:.2} | {:.2} |",
            proved / independent
        );
        match call {
            Call::Minimise => println!(" {joining:.2} | {:.2} |", proved / joining),
            Call::Verify => println!(),
        }
    }
    println!();
}
