//! Numbers at the ends of the format, alone or among ordinary ones, and any bits at all.

use super::parts;
use crate::casefile::Record;
use crate::random::Random;

/// Zeros, subnormals, the smallest and largest normal numbers, numbers whose square is just at
/// either end, infinities, NaNs of both signs and kinds.
const SPECIAL: [u32; 28] = [
    0x0000_0000,
    0x8000_0000,
    0x0000_0001,
    0x8000_0001,
    0x0000_0002,
    0x007F_FFFF,
    0x807F_FFFF,
    0x0080_0000,
    0x8080_0000,
    0x1FFF_FFFF,
    0x2000_0000,
    0x3400_0000,
    0x3480_0000,
    0x3F7F_FFFF,
    0x3F80_0000,
    0x3F80_0001,
    0xBF80_0000,
    0x5F7F_FFFF,
    0x5F80_0000,
    0xDF80_0000,
    0x7F00_0000,
    0x7F7F_FFFF,
    0xFF7F_FFFF,
    0x7F80_0000,
    0xFF80_0000,
    0x7FC0_0000,
    0xFFC0_0000,
    0x7F80_0001,
];

fn special(random: &mut Random) -> f32 {
    f32::from_bits(random.pick(&SPECIAL))
}

/// Puts `other` in place of a number with a chance in percent.
fn spoiled(random: &mut Random, percent: usize, number: f32, other: fn(&mut Random) -> f32) -> f32 {
    if random.chance(percent) {
        other(random)
    } else {
        number
    }
}

fn spoiled_record(random: &mut Random, percent: usize, other: fn(&mut Random) -> f32) -> Record {
    let size = |random: &mut Random| {
        let number = random.between(0.1, 1.5);
        spoiled(random, percent, number, other)
    };
    let coordinate = |random: &mut Random| {
        let number = random.between(-1.5, 1.5);
        spoiled(random, percent, number, other)
    };
    let rotation = parts::rotation(random);
    Record {
        first: parts::shape(random, size, coordinate),
        second: parts::shape(random, size, coordinate),
        rotation: rotation.map(|part| spoiled(random, percent, part, other)),
        translation: parts::three(random, coordinate),
        direction: parts::three(random, coordinate),
        max_distance: coordinate(random),
        exact: random.chance(50),
    }
}

pub fn limits(random: &mut Random) -> Record {
    let percent = random.pick(&[3, 10, 30, 100]);
    spoiled_record(random, percent, special)
}

pub fn bits(random: &mut Random) -> Record {
    let percent = random.pick(&[5, 20, 100, 100]);
    spoiled_record(random, percent, Random::any_float)
}
