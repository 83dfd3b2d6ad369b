//! Cases of the checker of a separating direction: generated, answered by a plain exact check that is written apart from the port
//! (every pair of corners, in 128 bits), and counted by the limits that they meet. `tools/compare_certificates` uses it.
//!   gen COUNT SEED   writes cases (crates/certificates/src/main.rt has the layout)
//!   run              cases in, a line for each out, as the program writes it
//!   limits           cases in; how many meet each limit

mod case;
mod check;
mod generate;
mod limits;
#[path = "../src/random.rs"]
#[allow(dead_code)] // the other generators use the rest
mod random;

use std::io::{stdin, stdout, BufReader, BufWriter, Write};

fn number(text: Option<&String>) -> u64 {
    text.and_then(|t| t.parse().ok()).expect("a number")
}

fn main() -> std::io::Result<()> {
    let words: Vec<String> = std::env::args().skip(1).collect();
    let mut out = BufWriter::new(stdout().lock());
    let mut input = BufReader::new(stdin().lock());
    match words.first().map(String::as_str) {
        Some("gen") => {
            let mut random = random::Random::new(number(words.get(2)));
            for _ in 0..number(words.get(1)) {
                generate::case(&mut random).write(&mut out)?;
            }
        }
        Some("run") => {
            while let Some(case) = case::Case::read(&mut input)? {
                writeln!(out, "{:2}", check::answer(&case))?;
            }
        }
        Some("limits") => {
            let mut met = limits::Limits::default();
            while let Some(case) = case::Case::read(&mut input)? {
                met.add(&case);
            }
            write!(out, "{met}")?;
        }
        _ => {
            eprintln!("certificates gen COUNT SEED | run | limits");
            std::process::exit(2);
        }
    }
    out.flush()
}
