//! How many cases meet each limit of the checker.

use crate::case::Case;
use crate::check::{answer, is_hull, is_in_range, product};
use std::fmt;

const NAMES: [&str; 14] = [
    "accepted",
    "refusal 9",
    "refusal 10",
    "refusal 11",
    "a hull with no corner",
    "a hull with 1 corner",
    "a hull with 64 corners",
    "a hull with 65 corners",
    "a length that is no whole number of corners",
    "lengths and ranges both wrong",
    "a number 1,048,576 or -1,048,576",
    "a number 1,048,577 or -1,048,577",
    "the zero direction",
    "greatest and least product equal",
];

#[derive(Default)]
pub struct Limits {
    met: [u64; NAMES.len()],
    one_apart: u64,
}

impl Limits {
    pub fn add(&mut self, case: &Case) {
        let given = answer(case);
        let hulls = [&case.first, &case.second];
        let numbers = || case.first.iter().chain(&case.second).chain(&case.direction);
        let has = |n: usize| hulls.iter().any(|h| h.len() == n);
        let size = |n: u32| numbers().any(|m| m.unsigned_abs() == n);
        let fits = hulls.iter().all(|h| is_hull(h));
        let gap = if fits && numbers().all(is_in_range) {
            Some(gap(case))
        } else {
            None
        };
        let met = [
            given == 0,
            given == 9,
            given == 10,
            given == 11,
            has(0),
            has(3),
            has(192),
            has(195),
            hulls.iter().any(|h| h.len() % 3 != 0),
            !fits && !numbers().all(is_in_range),
            size(1_048_576),
            size(1_048_577),
            case.direction == [0; 3],
            gap == Some(0),
        ];
        for (count, met) in self.met.iter_mut().zip(met) {
            *count += u64::from(met);
        }
        self.one_apart += u64::from(gap == Some(1));
    }
}

/// The least product of the second less the greatest of the first.
fn gap(case: &Case) -> i128 {
    let products = |hull: &[i32]| -> Vec<i128> {
        hull.chunks(3).map(|c| product(c, case.direction)).collect()
    };
    let least = products(&case.second).into_iter().min().expect("a corner");
    let greatest = products(&case.first).into_iter().max().expect("a corner");
    least - greatest
}

impl fmt::Display for Limits {
    fn fmt(&self, out: &mut fmt::Formatter) -> fmt::Result {
        for (name, count) in NAMES.iter().zip(self.met) {
            writeln!(out, "{count:>9} {name}")?;
        }
        writeln!(
            out,
            "{:>9} greatest and least product one apart",
            self.one_apart
        )
    }
}
