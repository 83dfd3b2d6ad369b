//! Parts of records that several families share.

use crate::casefile::{Record, Shape};
use crate::random::Random;

pub const IDENTITY: [f32; 4] = [0.0, 0.0, 0.0, 1.0];

/// A shape of any kind whose numbers come from two sources: sizes (radius, half extent)
/// and coordinates (ends, corners).
pub fn shape(
    random: &mut Random,
    mut size: impl FnMut(&mut Random) -> f32,
    mut coordinate: impl FnMut(&mut Random) -> f32,
) -> Shape {
    match random.below(4) {
        0 => Shape::Ball([size(random)]),
        1 => Shape::Cuboid([size(random), size(random), size(random)]),
        2 => {
            let mut numbers = [0.0; 7];
            numbers[..6].fill_with(|| coordinate(random));
            numbers[6] = size(random);
            Shape::Capsule(numbers)
        }
        _ => {
            let mut numbers = [0.0; 9];
            numbers.fill_with(|| coordinate(random));
            Shape::Triangle(numbers)
        }
    }
}

pub fn three(random: &mut Random, mut number: impl FnMut(&mut Random) -> f32) -> [f32; 3] {
    [number(random), number(random), number(random)]
}

/// A unit quaternion within rounding; one in ten is stretched, as nothing refuses that.
pub fn rotation(random: &mut Random) -> [f32; 4] {
    let mut quaternion = [0.0_f32; 4];
    let mut squared = 0.0;
    while squared < 0.01 {
        quaternion.fill_with(|| random.between(-1.0, 1.0));
        squared = quaternion.iter().map(|part| part * part).sum();
    }
    let mut factor = 1.0 / squared.sqrt();
    if random.chance(10) {
        factor *= random.between(0.25, 2.0);
    }
    quaternion.map(|part| part * factor)
}

/// An axis or its negative.
pub fn axis(random: &mut Random) -> [f32; 3] {
    let mut axis = [0.0; 3];
    axis[random.below(3)] = random.signed(1.0);
    axis
}

/// Mostly no limit or one that the shapes' distance may pass.
pub fn max_distance(random: &mut Random, scale: f32) -> f32 {
    match random.below(4) {
        0 => f32::MAX,
        1 => scale,
        2 => scale * random.between(0.0, 2.0),
        _ => random.pick(&[0.0, 0.25 * scale, 4.0 * scale, f32::INFINITY]),
    }
}

/// A record of two shapes and a pose, with a start direction as a user would give it: the
/// translation, an axis or any.
pub fn record(
    random: &mut Random,
    shapes: [Shape; 2],
    rotation: [f32; 4],
    translation: [f32; 3],
    scale: f32,
) -> Record {
    let direction = match random.below(3) {
        0 => translation,
        1 => axis(random),
        _ => three(random, |random| random.between(-1.0, 1.0)),
    };
    Record {
        first: shapes[0],
        second: shapes[1],
        rotation,
        translation,
        direction,
        max_distance: max_distance(random, scale),
        exact: random.chance(50),
    }
}
