//! Compares our vectors and rotations with the packaged crate's, in its scalar form and in the one that uses the processor's
//! vector registers: bit by bit, all NaNs as one value.

#[path = "src/random.rs"]
#[allow(dead_code)]
mod random;

use random::Random;
use std::process::ExitCode;

const ROUNDS: usize = 2_000_000;

const SPECIAL: [f32; 16] = [
    0.0,
    -0.0,
    f32::from_bits(1),
    f32::from_bits(0x8000_0001),
    f32::from_bits(0x007F_FFFF),
    f32::MIN_POSITIVE,
    f32::from_bits(0x1FFF_FFFF), // squares at the lower end
    f32::from_bits(0x2000_0000),
    1.0,
    -1.0,
    f32::from_bits(0x5F80_0000), // squares at the upper end
    f32::MAX,
    f32::MIN,
    f32::INFINITY,
    f32::NEG_INFINITY,
    f32::NAN,
];

const OPERATIONS: [&str; 18] = [
    "dot",
    "cross",
    "length_squared",
    "length",
    "length_recip",
    "normalize",
    "try_normalize",
    "normalize_or",
    "normalize_or_zero",
    "neg",
    "add",
    "sub",
    "mul by a number",
    "div by a number",
    "abs",
    "eq",
    "rotation of a vector",
    "inverse rotation of a vector",
];

/// What a round's operations are given.
#[derive(Debug)]
struct Inputs {
    u: [f32; 3],
    v: [f32; 3],
    number: f32,
    rotation: [f32; 4],
}

type Words = [u32; 3];

/// What stands for `None`: no number that is written has these bits, as all NaNs are 7FC00000.
const NONE: Words = [u32::MAX; 3];

fn bits(float: f32) -> u32 {
    if float.is_nan() {
        0x7FC0_0000
    } else {
        float.to_bits()
    }
}

/// Every operation, by the vector and the rotation of one library.
macro_rules! by {
    ($answers:ident, $vector:ty, $rotation:ty) => {
        fn $answers(inputs: &Inputs) -> [Words; OPERATIONS.len()] {
            let vector = |[x, y, z]: [f32; 3]| <$vector>::new(x, y, z);
            let words = |v: $vector| [v.x, v.y, v.z].map(bits);
            let number = |x: f32| [bits(x), 0, 0];
            let (u, v) = (vector(inputs.u), vector(inputs.v));
            let [x, y, z, w] = inputs.rotation;
            let rotation = <$rotation>::from_xyzw(x, y, z, w);
            [
                number(u.dot(v)),
                words(u.cross(v)),
                number(u.length_squared()),
                number(u.length()),
                number(u.length_recip()),
                words(u.normalize()),
                u.try_normalize().map_or(NONE, words),
                words(u.normalize_or(v)),
                words(u.normalize_or_zero()),
                words(-u),
                words(u + v),
                words(u - v),
                words(u * inputs.number),
                words(u / inputs.number),
                words(u.abs()),
                [u32::from(u == v), 0, 0],
                words(rotation * v),
                words(rotation.inverse() * v),
            ]
        }
    };
}

by!(ours, glamx::Vec3, glamx::Rot3);
by!(scalar, glam_scalar::Vec3, glam_scalar::Quat);
by!(simd, glam_simd::Vec3, glam_simd::Quat);

/// One kind for all numbers of a round, so that ordinary numbers meet each other; now and then another among them.
fn number(random: &mut Random, kind: usize) -> f32 {
    let kind = if random.chance(5) {
        random.below(4)
    } else {
        kind
    };
    match kind {
        0 => random.between(-4.0, 4.0),
        1 => random.any_float(),
        2 => random.pick(&SPECIAL),
        _ => {
            let magnitude = random.scaled(-149, 127);
            random.signed(magnitude)
        }
    }
}

fn inputs(random: &mut Random) -> Inputs {
    let kind = random.below(4);
    let u = [(); 3].map(|()| number(random, kind));
    let other = [(); 3].map(|()| number(random, kind));
    Inputs {
        u,
        v: if random.chance(10) { u } else { other },
        number: number(random, kind),
        rotation: [(); 4].map(|()| number(random, kind)),
    }
}

/// How many answers differ, each with a line.
fn different(form: &str, inputs: &Inputs, ours: &[Words], packaged: &[Words]) -> u64 {
    let mut different = 0;
    for ((operation, ours), packaged) in OPERATIONS.iter().zip(ours).zip(packaged) {
        if ours != packaged {
            different += 1;
            println!("{operation}, {form}: {inputs:?}: ours {ours:X?}, packaged {packaged:X?}");
        }
    }
    different
}

fn main() -> ExitCode {
    let mut random = Random::new(1);
    let mut found = 0;
    for _ in 0..ROUNDS {
        let inputs = inputs(&mut random);
        let ours = ours(&inputs);
        found += different("scalar", &inputs, &ours, &scalar(&inputs));
        found += different("simd", &inputs, &ours, &simd(&inputs));
    }
    println!(
        "glam: {} operations in two forms, {} calls compared, {found} different",
        OPERATIONS.len(),
        2 * ROUNDS * OPERATIONS.len()
    );
    ExitCode::from(u8::from(found > 0))
}
