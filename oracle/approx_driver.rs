//! Compares our `relative_eq` with the packaged crate's: the function with any tolerances and
//! the macro with the tolerances that the published text uses.

#[path = "src/random.rs"]
#[allow(dead_code)]
mod random;

use approx_packaged::RelativeEq;
use random::Random;
use std::process::ExitCode;

const RANDOM_PAIRS: usize = 20_000_000;

const SPECIAL: [f32; 19] = [
    0.0,
    -0.0,
    f32::from_bits(1),
    f32::from_bits(0x8000_0001),
    f32::from_bits(0x007F_FFFF),
    f32::MIN_POSITIVE,
    -f32::MIN_POSITIVE,
    f32::EPSILON,
    100.0 * f32::EPSILON,
    (100.0 * f32::EPSILON) * (100.0 * f32::EPSILON),
    1.0,
    -1.0,
    1.0 + f32::EPSILON,
    1.0 - f32::EPSILON / 2.0,
    f32::MAX,
    f32::MIN,
    f32::INFINITY,
    f32::NEG_INFINITY,
    f32::NAN,
];

/// The tolerance of `is_affinely_dependent`.
const AREA_TOLERANCE: f32 = (f32::EPSILON * 100.0) * (f32::EPSILON * 100.0);

struct Comparison {
    calls: u64,
    different: u64,
}

impl Comparison {
    fn note(&mut self, inputs: &[f32], ours: bool, packaged: bool) {
        self.calls += 1;
        if ours != packaged {
            self.different += 1;
            println!("{inputs:?}: ours {ours}, packaged {packaged}");
        }
    }

    fn function(&mut self, x: f32, y: f32, epsilon: f32, max_relative: f32) {
        self.note(
            &[x, y, epsilon, max_relative],
            approx::relative_eq(x, y, epsilon, max_relative),
            RelativeEq::relative_eq(&x, &y, epsilon, max_relative),
        );
    }

    fn macros(&mut self, x: f32, y: f32) {
        self.note(
            &[x, y],
            approx::relative_eq!(x, y),
            approx_packaged::relative_eq!(x, y),
        );
        self.note(
            &[x, y, AREA_TOLERANCE],
            approx::relative_eq!(x, y, epsilon = AREA_TOLERANCE),
            approx_packaged::relative_eq!(x, y, epsilon = AREA_TOLERANCE),
        );
    }
}

/// A number a few steps away: the tests turn there.
fn neighbour(random: &mut Random, x: f32) -> f32 {
    let steps = random.below(9) as u32;
    f32::from_bits(x.to_bits().wrapping_add(steps).wrapping_sub(4))
}

fn pair(random: &mut Random) -> (f32, f32) {
    let x = match random.below(3) {
        0 => random.any_float(),
        1 => random.pick(&SPECIAL),
        _ => random.scaled(-50, 10),
    };
    let y = match random.below(4) {
        0 => random.any_float(),
        1 => random.pick(&SPECIAL),
        _ => neighbour(random, x),
    };
    (x, y)
}

fn main() -> ExitCode {
    let mut comparison = Comparison {
        calls: 0,
        different: 0,
    };
    for x in SPECIAL {
        for y in SPECIAL {
            comparison.macros(x, y);
            for epsilon in SPECIAL {
                for max_relative in SPECIAL {
                    comparison.function(x, y, epsilon, max_relative);
                }
            }
        }
    }
    let mut random = Random::new(1);
    for _ in 0..RANDOM_PAIRS {
        let (x, y) = pair(&mut random);
        comparison.macros(x, y);
        let (epsilon, max_relative) = pair(&mut random);
        comparison.function(x, y, epsilon, max_relative);
    }
    println!(
        "relative_eq: {} calls compared, {} different",
        comparison.calls, comparison.different
    );
    ExitCode::from(u8::from(comparison.different > 0))
}
