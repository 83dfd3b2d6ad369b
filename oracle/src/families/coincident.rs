//! Equal shapes, shapes of no size, coincident centres and corners.

use super::{grid, parts};
use crate::casefile::{Record, Shape};
use crate::random::Random;

/// Zero half of the time.
fn maybe_zero(random: &mut Random, number: f32) -> f32 {
    if random.chance(50) {
        0.0
    } else {
        number
    }
}

fn size(random: &mut Random) -> f32 {
    let number = if random.chance(50) {
        grid::size(random)
    } else {
        random.between(0.1, 1.5)
    };
    if random.chance(70) {
        number
    } else {
        maybe_zero(random, number)
    }
}

fn coordinate(random: &mut Random) -> f32 {
    let number = if random.chance(50) {
        grid::coordinate(random)
    } else {
        random.between(-1.5, 1.5)
    };
    if random.chance(70) {
        number
    } else {
        maybe_zero(random, number)
    }
}

/// Makes ends or corners fall together.
fn collapsed(random: &mut Random, shape: Shape) -> Shape {
    match shape {
        Shape::Capsule(mut numbers) => {
            numbers.copy_within(0..3, 3);
            Shape::Capsule(numbers)
        }
        Shape::Triangle(mut corners) => {
            corners.copy_within(0..3, 3);
            if random.chance(50) {
                corners.copy_within(0..3, 6);
            }
            Shape::Triangle(corners)
        }
        other => other,
    }
}

pub fn coincident(random: &mut Random) -> Record {
    let mut first = parts::shape(random, size, coordinate);
    if random.chance(20) {
        first = collapsed(random, first);
    }
    let mut second = if random.chance(50) {
        first
    } else {
        parts::shape(random, size, coordinate)
    };
    if random.chance(20) {
        second = collapsed(random, second);
    }
    let rotation = if random.chance(70) {
        grid::turn(random)
    } else {
        parts::rotation(random)
    };
    let translation = if random.chance(60) {
        [0.0; 3]
    } else {
        parts::three(random, coordinate)
    };
    parts::record(random, [first, second], rotation, translation, 1.0)
}
