//! Every operation on numbers of several kinds.

use crate::check::Check;
use crate::operations::{Inputs, Operation, CONSTANTS, OPERATIONS};
use crate::port::Compared;
use crate::random::Random;
use crate::words::Put;
use glamx::{Pose3, Rot3, Vec3};

const SPECIAL: [u32; 24] = [
    0x0000_0000, // zeros
    0x8000_0000,
    0x0000_0001, // subnormals
    0x8000_0001,
    0x007F_FFFF,
    0x807F_FFFF,
    0x0080_0000, // smallest normal
    0x8080_0000,
    0x1FFF_FFFF, // squares at the lower end
    0x2000_0000,
    0x3F7F_FFFF, // about one
    0x3F80_0000,
    0x3F80_0001,
    0xBF80_0000,
    0x5F7F_FFFF, // squares at the upper end
    0x5F80_0000,
    0x7F7F_FFFF, // limits
    0xFF7F_FFFF,
    0x7F80_0000, // infinities
    0xFF80_0000,
    0x7FC0_0000, // NaNs of both signs and kinds
    0xFFC0_0000,
    0x7F80_0001,
    0xFFFF_FFFF,
];

fn any(random: &mut Random) -> f32 {
    random.any_float()
}

fn ordinary(random: &mut Random) -> f32 {
    random.between(-4.0, 4.0)
}

fn special(random: &mut Random) -> f32 {
    f32::from_bits(random.pick(&SPECIAL))
}

/// Whole numbers and their squares, so that lengths come out whole too.
fn square(random: &mut Random) -> f32 {
    let root = random.below(2048) as f32;
    let square = if random.chance(50) { root * root } else { root };
    random.signed(square)
}

fn scaled(random: &mut Random) -> f32 {
    let magnitude = random.scaled(-149, 127);
    random.signed(magnitude)
}

const KINDS: [fn(&mut Random) -> f32; 5] = [any, ordinary, special, square, scaled];

/// All numbers of one kind, or each of any kind.
fn inputs(random: &mut Random) -> Inputs {
    let kind = random.below(KINDS.len() + 1);
    let mut number = || {
        let mixed = random.below(KINDS.len());
        KINDS.get(kind).unwrap_or(&KINDS[mixed])(random)
    };
    let mut vector = || Vec3::new(number(), number(), number());
    let (a, other, translation) = (vector(), vector(), vector());
    let rotation = Rot3::from_xyzw(number(), number(), number(), number());
    let (x, y) = (number(), number());
    // Equal vectors are rare otherwise.
    let b = if random.chance(10) { a } else { other };
    let index = random.pick(&[0, 1, 2, 3, 4, usize::MAX]);
    Inputs {
        x,
        y,
        a,
        b,
        pose: Pose3::from_parts(translation, rotation),
        index,
    }
}

/// What every function of this file has as its arguments, of which it takes those it needs.
fn arguments(i: &Inputs) -> impl Put {
    (i.x, i.y, i.a, i.b, i.pose, i.index)
}

fn compare_all(check: &mut Check, operations: &[Operation], inputs: &Inputs) -> Compared {
    for operation in operations {
        let rust = (operation.rust)(inputs);
        check.same(operation.name, operation.function, &arguments(inputs), rust)?;
    }
    Ok(())
}

pub fn compare(check: &mut Check, count: u64, seed: u64) -> Compared {
    let mut random = Random::new(seed);
    compare_all(check, CONSTANTS, &inputs(&mut random))?;
    for _ in 0..count {
        compare_all(check, OPERATIONS, &inputs(&mut random))?;
    }
    Ok(())
}
