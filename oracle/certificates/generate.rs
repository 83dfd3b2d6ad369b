//! Generated cases. Each kind of number, of length and of position that the checker tells apart comes often.

use crate::case::Case;
use crate::random::Random;

const LIMIT: i64 = 1_048_576;

/// Ends of the range and the numbers beside them.
const EDGES: [i64; 12] = [
    0,
    1,
    -1,
    LIMIT,
    -LIMIT,
    LIMIT - 1,
    1 - LIMIT,
    LIMIT,
    -LIMIT,
    LIMIT,
    -LIMIT,
    2,
];
const BEYOND: [i64; 6] = [
    LIMIT + 1,
    -LIMIT - 1,
    i32::MAX as i64,
    i32::MIN as i64,
    LIMIT + 2,
    1 << 30,
];

/// How large the numbers of a case are.
#[derive(Copy, Clone)]
enum Size {
    Few,
    Grid,
    Edges,
}

fn number(random: &mut Random, size: Size) -> i64 {
    match size {
        Size::Few => random.below(7) as i64 - 3,
        Size::Grid => random.below(2 * LIMIT as usize + 1) as i64 - LIMIT,
        Size::Edges => random.pick(&EDGES),
    }
}

fn vector(random: &mut Random, size: Size) -> [i64; 3] {
    [
        number(random, size),
        number(random, size),
        number(random, size),
    ]
}

fn corners(random: &mut Random) -> usize {
    match random.below(40) {
        0 => 64,
        1 => 63,
        2 => 1 + random.below(64),
        _ => 1 + random.below(6),
    }
}

fn clamped(v: [i64; 3]) -> [i64; 3] {
    v.map(|n| n.clamp(-LIMIT, LIMIT))
}

/// A corner moved at a right angle to the direction: its product is the same, unless it leaves the range.
fn beside(random: &mut Random, [x, y, z]: [i64; 3], [dx, dy, dz]: [i64; 3]) -> [i64; 3] {
    let k = number(random, Size::Few);
    let moved = match random.below(3) {
        0 => [x + k * dy, y - k * dx, z],
        1 => [x, y + k * dz, z - k * dy],
        _ => [x + k * dz, y, z - k * dx],
    };
    clamped(moved)
}

fn dot(a: [i64; 3], b: [i64; 3]) -> i64 {
    (0..3).map(|k| a[k] * b[k]).sum()
}

/// A corner of the second hull: anywhere; where the greatest product of the first is; one step from there; or far along the direction.
fn placed(random: &mut Random, size: Size, top: [i64; 3], d: [i64; 3], how: usize) -> [i64; 3] {
    let step = match how {
        0 => return vector(random, size),
        1 => 0,
        2 => 1,
        _ => 1 + random.below(4) as i64,
    };
    let near = beside(random, top, d);
    let k = random.below(3);
    let mut moved = near;
    moved[k] += step * d[k].signum();
    if how == 4 {
        moved = [0, 1, 2].map(|k| near[k] + d[k] / 2 + d[k].signum());
    }
    clamped(moved)
}

/// In one case of ten something is wrong with the lengths, in one of ten with a number.
fn spoiled(random: &mut Random, mut case: Case) -> Case {
    let hull = if random.chance(50) {
        &mut case.first
    } else {
        &mut case.second
    };
    match random.below(40) {
        0 => hull.clear(),
        1 => hull.truncate(1 + random.below(2)),
        2 => hull.push(0),
        3 => hull.resize(195, 0),
        4 | 5 => {
            let place = random.below(hull.len());
            hull[place] = random.pick(&BEYOND) as i32;
        }
        6 => case.direction[random.below(3)] = random.pick(&BEYOND) as i32,
        7 => {
            hull.push(0);
            case.direction[0] = random.pick(&BEYOND) as i32;
        }
        _ => {}
    }
    case
}

fn flat(hull: &[[i64; 3]]) -> Vec<i32> {
    hull.iter().flatten().map(|&n| n as i32).collect()
}

pub fn case(random: &mut Random) -> Case {
    let sizes = [Size::Few, Size::Grid, Size::Edges];
    let size = random.pick(&sizes);
    let towards = random.pick(&sizes);
    let d = if random.chance(2) {
        [0; 3]
    } else {
        vector(random, towards)
    };
    let first: Vec<_> = (0..corners(random)).map(|_| vector(random, size)).collect();
    let top = first
        .iter()
        .copied()
        .max_by_key(|&c| dot(c, d))
        .expect("a corner");
    let how = random.below(5);
    let second: Vec<_> = (0..corners(random))
        .map(|_| placed(random, size, top, d, how))
        .collect();
    let direction = d.map(|n| n as i32);
    spoiled(
        random,
        Case {
            first: flat(&first),
            second: flat(&second),
            direction,
        },
    )
}
