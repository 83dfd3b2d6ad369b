//! Small whole numbers and halves, quarter and half turns: ties everywhere.

use super::parts;
use crate::casefile::Record;
use crate::random::Random;

const HALF: f32 = 0.5;
/// The f32 nearest the root of a half.
const QUARTER_TURN: f32 = std::f32::consts::FRAC_1_SQRT_2;

/// Turns by multiples of 90 degrees about an axis and of 120 about a diagonal. The last two are
/// quarter turns in whole numbers that also stretch by two.
pub const TURNS: [[f32; 4]; 13] = [
    [0.0, 0.0, 0.0, 1.0],
    [0.0, 0.0, 0.0, -1.0],
    [1.0, 0.0, 0.0, 0.0],
    [0.0, 1.0, 0.0, 0.0],
    [0.0, 0.0, 1.0, 0.0],
    [QUARTER_TURN, 0.0, 0.0, QUARTER_TURN],
    [0.0, QUARTER_TURN, 0.0, QUARTER_TURN],
    [0.0, 0.0, QUARTER_TURN, QUARTER_TURN],
    [0.0, 0.0, -QUARTER_TURN, QUARTER_TURN],
    [HALF, HALF, HALF, HALF],
    [-HALF, HALF, HALF, HALF],
    [1.0, 0.0, 0.0, 1.0],
    [0.0, 0.0, 1.0, 1.0],
];

/// From -2 to 2 by halves.
pub fn coordinate(random: &mut Random) -> f32 {
    (random.below(9) as f32 - 4.0) * HALF
}

/// From a half to 2 by halves.
pub fn size(random: &mut Random) -> f32 {
    (random.below(4) + 1) as f32 * HALF
}

pub fn turn(random: &mut Random) -> [f32; 4] {
    if random.chance(50) {
        parts::IDENTITY
    } else {
        random.pick(&TURNS)
    }
}

pub fn grid(random: &mut Random) -> Record {
    let shapes = [
        parts::shape(random, size, coordinate),
        parts::shape(random, size, coordinate),
    ];
    let translation = match random.below(4) {
        0 => [0.0; 3],
        1 => parts::axis(random),
        _ => parts::three(random, coordinate),
    };
    let direction = if random.chance(50) {
        parts::axis(random)
    } else {
        parts::three(random, coordinate)
    };
    Record {
        first: shapes[0],
        second: shapes[1],
        rotation: turn(random),
        translation,
        direction,
        max_distance: random.pick(&[0.0, HALF, 1.0, 2.0, f32::MAX]),
        exact: random.chance(50),
    }
}
