//! Families of shapes at one scale or at several: ordinary, mixed, tiny, huge.

use super::parts;
use crate::casefile::Record;
use crate::random::Random;

/// Two shapes of about the same size, near enough that a good part penetrates.
fn at_scale(random: &mut Random, scale: f32) -> Record {
    let size = |random: &mut Random| scale * random.between(0.1, 1.5);
    let coordinate = |random: &mut Random| scale * random.between(-1.5, 1.5);
    let shapes = [
        parts::shape(random, size, coordinate),
        parts::shape(random, size, coordinate),
    ];
    let rotation = parts::rotation(random);
    let reach = scale * random.pick(&[0.25, 0.75, 1.5, 3.0]);
    let translation = parts::three(random, |random| random.between(-reach, reach));
    parts::record(random, shapes, rotation, translation, scale)
}

pub fn ordinary(random: &mut Random) -> Record {
    at_scale(random, 1.0)
}

/// Half of it where the tolerances, which are absolute, begin to tell, half down to subnormals.
pub fn tiny(random: &mut Random) -> Record {
    let (low, high) = random.pick(&[(-14, -4), (-140, -14)]);
    let scale = random.scaled(low, high);
    at_scale(random, scale)
}

/// Half of it where squares are still finite, half up to the largest numbers.
pub fn huge(random: &mut Random) -> Record {
    let (low, high) = random.pick(&[(6, 62), (62, 126)]);
    let scale = random.scaled(low, high);
    at_scale(random, scale)
}

/// Every number has a scale of its own, in the same shape too.
pub fn mixed(random: &mut Random) -> Record {
    let (low, high) = random.pick(&[(-4, 4), (-12, 12), (-30, 30), (-60, 60)]);
    let size = |random: &mut Random| random.scaled(low, high);
    let coordinate = |random: &mut Random| {
        let magnitude = random.scaled(low, high);
        random.signed(magnitude)
    };
    let shapes = [
        parts::shape(random, size, coordinate),
        parts::shape(random, size, coordinate),
    ];
    let rotation = parts::rotation(random);
    let translation = if random.chance(50) {
        parts::three(random, coordinate)
    } else {
        parts::three(random, |random| random.between(-0.5, 0.5))
    };
    let scale = size(random);
    parts::record(random, shapes, rotation, translation, scale)
}
