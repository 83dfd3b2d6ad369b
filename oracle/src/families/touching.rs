//! Shapes that touch exactly: along one axis the second begins where the first ends.

use super::{grid, parts};
use crate::casefile::{Record, Shape};
use crate::random::Random;

/// Least and greatest coordinate along each axis.
type Extent = [(f32, f32); 3];

fn points_extent(points: &[f32], radius: f32) -> Extent {
    [0, 1, 2].map(|axis| {
        let along = || points.iter().skip(axis).step_by(3);
        let least = along().fold(f32::INFINITY, |least, &next| least.min(next));
        let greatest = along().fold(f32::NEG_INFINITY, |most, &next| most.max(next));
        (least - radius, greatest + radius)
    })
}

fn extent(shape: &Shape) -> Extent {
    match shape {
        Shape::Ball([radius]) => points_extent(&[0.0; 3], *radius),
        Shape::Cuboid(half) => half.map(|half| (-half, half)),
        Shape::Capsule(numbers) => points_extent(&numbers[..6], numbers[6]),
        Shape::Triangle(corners) => points_extent(corners, 0.0),
    }
}

/// A half turn about an axis, or none, and the extent after it: two axes change sign.
fn half_turn(random: &mut Random, extent: Extent) -> ([f32; 4], Extent) {
    let turned = random.below(4);
    if turned == 3 {
        return (parts::IDENTITY, extent);
    }
    let mut rotation = [0.0; 4];
    rotation[turned] = 1.0;
    let after = [0, 1, 2].map(|axis| {
        let (least, greatest) = extent[axis];
        if axis == turned {
            (least, greatest)
        } else {
            (-greatest, -least)
        }
    });
    (rotation, after)
}

/// Moves the second shape along one axis so that it begins where the first ends.
fn touch(random: &mut Random, first: &Extent, second: &Extent, axis: usize) -> f32 {
    if random.chance(50) {
        first[axis].1 - second[axis].0
    } else {
        first[axis].0 - second[axis].1
    }
}

pub fn touching(random: &mut Random) -> Record {
    let on_grid = random.chance(60);
    let size = |random: &mut Random| {
        if on_grid {
            grid::size(random)
        } else {
            random.between(0.1, 2.0)
        }
    };
    let coordinate = |random: &mut Random| {
        if on_grid {
            grid::coordinate(random)
        } else {
            random.between(-2.0, 2.0)
        }
    };
    let shapes = [
        parts::shape(random, size, coordinate),
        parts::shape(random, size, coordinate),
    ];
    let first = extent(&shapes[0]);
    let (rotation, second) = half_turn(random, extent(&shapes[1]));

    // Balls and capsules only touch with the centres in line; for others any shift will do, and
    // more than one touching axis makes edges and corners meet.
    let mut translation = if random.chance(60) {
        [0.0; 3]
    } else {
        parts::three(random, coordinate)
    };
    let axis = random.below(3);
    translation[axis] = touch(random, &first, &second, axis);
    if random.chance(25) {
        let other = (axis + 1) % 3;
        translation[other] = touch(random, &first, &second, other);
    }
    parts::record(random, shapes, rotation, translation, 1.0)
}
