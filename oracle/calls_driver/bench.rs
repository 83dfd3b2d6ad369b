//! Nanoseconds per root, the port's beside the hardware's, on the same patterns: each root waits for the one before it, since its bits under
//! a mask alter the next pattern. The mask is 0, but neither compiler nor processor may know.

use crate::functions::ROOT_CHAIN;
use crate::port::{self, Compared};
use std::hint::black_box;
use std::io::Write;
use std::process::{ChildStdin, ChildStdout};
use std::time::Instant;

const ROOTS: u32 = 2_000_000;
/// The least of several times is the one that nothing disturbed.
const REPEATS: usize = 7;

/// Patterns of one class: the first, and the step to the next.
struct Class {
    name: &'static str,
    first: u32,
    step: u32,
}

const CLASSES: [Class; 4] = [
    Class {
        name: "1 to 4",
        first: 0x3F80_0000,
        step: 8,
    },
    Class {
        name: "any normal",
        first: 0x0080_0000,
        step: 1061,
    },
    Class {
        name: "subnormal",
        first: 1,
        step: 4,
    },
    Class {
        name: "any bits",
        first: 0,
        step: 2147,
    },
];

fn hardware(class: &Class, mask: u32) -> u32 {
    let mut pattern = class.first;
    let mut last = 0;
    for _ in 0..ROOTS {
        last = f32::from_bits(pattern ^ (last & mask)).sqrt().to_bits();
        pattern = pattern.wrapping_add(class.step);
    }
    last
}

/// The block goes to the program and its answer comes back, which takes less than a thousandth of the roots' time.
fn port(input: &mut ChildStdin, output: &mut ChildStdout, class: &Class) -> Compared {
    let call = [5, ROOT_CHAIN, class.first, class.step, ROOTS, 0];
    let failed = |error| format!("the program's input: {error}");
    input.write_all(&port::block(&call)).map_err(failed)?;
    input.flush().map_err(failed)?;
    match port::read_words(output, 1)?[..] {
        [_] => Ok(()),
        _ => Err("the program answers nothing".to_string()),
    }
}

fn nanoseconds(mut work: impl FnMut() -> Compared) -> Result<f64, String> {
    let mut least = f64::INFINITY;
    for _ in 0..REPEATS {
        let start = Instant::now();
        work()?;
        least = least.min(start.elapsed().as_secs_f64());
    }
    Ok(least * 1e9 / f64::from(ROOTS))
}

pub fn bench() -> Compared {
    let (mut child, mut input, mut output) = port::start();
    for class in &CLASSES {
        let of_hardware = nanoseconds(|| {
            black_box(hardware(class, black_box(0)));
            Ok(())
        })?;
        let of_port = nanoseconds(|| port(&mut input, &mut output, class))?;
        println!(
            "{:12} hardware {of_hardware:6.2} ns, port {of_port:7.2} ns, ratio {:6.1}",
            class.name,
            of_port / of_hardware
        );
    }
    drop(input);
    child
        .wait()
        .map_err(|error| format!("the program: {error}"))?;
    Ok(())
}
