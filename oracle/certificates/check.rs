//! The plain check: document 02's sentences on ticket 12, one by one, every pair of corners in 128 bits.

use crate::case::Case;

const LIMIT: i32 = 1_048_576;

pub fn product(corner: &[i32], direction: [i32; 3]) -> i128 {
    (0..3)
        .map(|k| i128::from(corner[k]) * i128::from(direction[k]))
        .sum()
}

pub fn is_hull(numbers: &[i32]) -> bool {
    numbers.len() % 3 == 0 && (1..=64).contains(&(numbers.len() / 3))
}

pub fn is_in_range(number: &i32) -> bool {
    (-LIMIT..=LIMIT).contains(number)
}

/// 0, or the refusal's number.
pub fn answer(case: &Case) -> u8 {
    if !is_hull(&case.first) || !is_hull(&case.second) {
        return 9;
    }
    if !case
        .first
        .iter()
        .chain(&case.second)
        .chain(&case.direction)
        .all(is_in_range)
    {
        return 10;
    }
    for a in case.first.chunks(3) {
        for b in case.second.chunks(3) {
            if product(a, case.direction) >= product(b, case.direction) {
                return 11;
            }
        }
    }
    0
}
