//! The square root against the hardware's, runs of patterns at a time.

use crate::functions::ROOTS;
use crate::port::{Compared, Label, Port};
use crate::random::Random;
use crate::words::bits;
use std::thread;
use std::time::Instant;

/// So many patterns from a first on, one call.
type Run = (u32, u32);

const LABEL: Label = Label {
    name: "roots",
    family: "a first pattern and a count",
};

fn root_bits(pattern: u32) -> u32 {
    bits(f32::from_bits(pattern).sqrt())
}

/// How many roots agreed.
fn compare_all(runs: impl Iterator<Item = Run>) -> Result<u64, String> {
    let mut port = Port::open();
    let mut roots = 0;
    let mut asked = Ok(());
    for (first, count) in runs {
        let of_run = |i| root_bits(first.wrapping_add(i));
        let answer: Vec<u32> = (0..count).map(of_run).collect();
        asked = port.ask(LABEL, ROOTS, &[first, count], &answer);
        if asked.is_err() {
            break;
        }
        roots += u64::from(count);
    }
    port.close().and(asked)?;
    Ok(roots)
}

fn print(roots: u64) {
    println!("{roots} roots compared, 0 different");
}

/// All 2^32 patterns, a part of them on every core.
pub fn all() -> Compared {
    const RUN: u64 = 1 << 18;
    let start = Instant::now();
    let cores = thread::available_parallelism().map_or(1, |count| count.get() as u64);
    let runs = (1 << 32) / RUN;
    let workers: Vec<_> = (0..cores)
        .map(|core| {
            let mine = core * runs / cores..(core + 1) * runs / cores;
            thread::spawn(move || compare_all(mine.map(|run| ((run * RUN) as u32, RUN as u32))))
        })
        .collect();
    let mut roots = 0;
    for worker in workers {
        roots += worker.join().expect("a comparison doesn't panic")?;
    }
    let seconds = start.elapsed().as_secs_f64();
    println!("roots all: {seconds:.1} s on {cores} cores");
    print(roots);
    Ok(())
}

/// Patterns near both ends of every exponent, of either sign.
fn boundaries() -> impl Iterator<Item = Run> {
    const NEAR: u32 = 256;
    (0..512_u32).flat_map(|sign_and_exponent| {
        let first = sign_and_exponent << 23;
        [(first, NEAR), (first + 0x0080_0000 - NEAR, NEAR)]
    })
}

/// Whole squares and the numbers beside them.
fn squares() -> impl Iterator<Item = Run> {
    (1..4096_u32).map(|root| (((root * root) as f32).to_bits() - 1, 3))
}

/// Numbers beside the square of a middle of two neighbours: there rounding turns.
fn turning_points() -> impl Iterator<Item = Run> {
    let mut random = Random::new(1);
    (0..1_000_000).map(move |_| {
        let root = f64::from(1.0 + random.unit()) + f64::from(f32::EPSILON) / 2.0;
        let scaled = root * root * if random.chance(50) { 1.0 } else { 4.0 };
        ((scaled as f32).to_bits() - 1, 3)
    })
}

/// Every thousandth pattern or so.
fn spread() -> impl Iterator<Item = Run> {
    (0..=u32::MAX).step_by(1009).map(|pattern| (pattern, 1))
}

pub fn short() -> Compared {
    let runs = boundaries().chain(squares());
    print(compare_all(runs.chain(turning_points()).chain(spread()))?);
    Ok(())
}
