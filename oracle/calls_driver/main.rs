//! Holds the port's public operations against the published Rust that the oracle is built of, call by call: calls go to the port's program
//! `calls` as words, the Rust answers them here, and each word of the port's answers is compared, all NaNs as one value. A panic of the Rust
//! must be the port's refusal, with the simplex as it came in and the stores as the Rust had them then. See oracle/README.md.

mod answers;
mod bench;
mod check;
mod families;
mod functions;
mod heap;
mod operations;
mod polytope;
mod port;
mod projections;
mod reductions;
mod roots;
mod rust_leaves;
mod searches;
mod shapes;
mod simplices;
mod stores;
mod values;
mod vectors;
mod words;

#[path = "../src/random.rs"]
mod random;

use check::Check;
use families::{Numbers, FAMILIES};
use port::Compared;
use random::Random;
use std::process::ExitCode;

const USAGE: &str = "\
calls_driver roots all               the root on every one of the 2^32 patterns
calls_driver roots short             the root on boundaries and a few million patterns
calls_driver vectors COUNT SEED      every operation on COUNT sets of numbers
calls_driver geometry COUNT SEED     COUNT rounds, the families in turn; a round has each operation at least once
calls_driver heap OPERATIONS SEED    push, pop and peek in runs
calls_driver polytope COUNT SEED     COUNT runs from any simplex over stores of any length, the families in turn
calls_driver plain COUNT SEED        the same with the plain walk, which has a store more
calls_driver bench                   ns per root beside the hardware's
The program is target/bin/calls (tools/built calls), or the one that CALLS names.
";

/// Compares by calls, so many and from a seed.
type Compare = fn(&mut Check, u64, u64) -> Compared;

/// Status 1: a difference. Status 2: the command line is wrong. Status 3: the program does not start.
fn main() -> ExitCode {
    std::panic::set_hook(Box::new(|_| {}));
    let arguments: Vec<String> = std::env::args().skip(1).collect();
    let words: Vec<&str> = arguments.iter().map(String::as_str).collect();
    match command(&words) {
        Some(Ok(())) => ExitCode::SUCCESS,
        Some(Err(difference)) => {
            println!("{difference}");
            ExitCode::FAILURE
        }
        None => {
            eprint!("{USAGE}");
            ExitCode::from(2)
        }
    }
}

/// `None` if the words are no command.
fn command(words: &[&str]) -> Option<Compared> {
    match words {
        ["roots", "all"] => Some(roots::all()),
        ["roots", "short"] => Some(roots::short()),
        ["bench"] => Some(bench::bench()),
        [subject, count, seed] => {
            let compare: Compare = match *subject {
                "vectors" => vectors::compare,
                "geometry" => compare_geometry,
                "heap" => heap::compare_runs,
                "polytope" => polytope::compare_runs,
                "plain" => polytope::compare_plain_runs,
                _ => return None,
            };
            let (count, seed) = (count.parse().ok()?, seed.parse().ok()?);
            let mut check = Check::open();
            let done = compare(&mut check, count, seed);
            Some(check.close(done))
        }
        _ => None,
    }
}

fn compare_geometry(check: &mut Check, count: u64, seed: u64) -> Compared {
    let mut random = Random::new(seed);
    for family in FAMILIES.into_iter().cycle().take(count as usize) {
        check.family = family;
        let mut numbers = Numbers::new(&mut random, family);
        shapes::compare_support_points(check, &mut numbers)?;
        shapes::compare_vertices(check, &mut numbers)?;
        projections::compare_projections(check, &mut numbers)?;
        projections::compare_tests(check, &mut numbers)?;
        simplices::compare_simplices(check, &mut numbers)?;
        searches::compare_searches(check, &mut numbers)?;
    }
    Ok(())
}
