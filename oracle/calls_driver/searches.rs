//! `closest_points` of gjk.rs, from any simplex.

use crate::answers::Answer;
use crate::check::Check;
use crate::families::Numbers;
use crate::functions::CLOSEST_POINTS;
use crate::port::Compared;
use crate::shapes::{direction, raw_shape, rust_shape};
use crate::simplices::{altered, any_simplex};
use crate::values::Simplex;
use glamx::Vec3;
use parry3d::query::gjk::{self, CsoPoint, GJKResult, VoronoiSimplex};

/// A result's number, and its vectors.
fn numbered(result: GJKResult) -> Answer {
    match result {
        GJKResult::Intersection => Answer::said(0),
        GJKResult::ClosestPoints(p1, p2, dir) => Answer::of_vectors(1, [p1, p2, dir]),
        GJKResult::Proximity(dir) => Answer::of_vectors(2, [dir, Vec3::ZERO, Vec3::ZERO]),
        GJKResult::NoIntersection(dir) => Answer::of_vectors(3, [dir, Vec3::ZERO, Vec3::ZERO]),
    }
}

/// The kinds of a search, by its result, the last for the refusal.
const KINDS: [&str; 5] = [
    "gjk: Intersection",
    "gjk: ClosestPoints",
    "gjk: Proximity",
    "gjk: NoIntersection",
    "gjk: refused",
];
const REFUSED: usize = 4;

pub fn compare_searches(check: &mut Check, n: &mut Numbers) -> Compared {
    let (raw1, raw2) = (raw_shape(n), raw_shape(n));
    let (pose, dir) = (n.pose(), direction(n, &raw1));
    let (g1, g2) = (rust_shape(&raw1), rust_shape(&raw2));
    let max_dist = if n.random.chance(50) {
        f32::MAX
    } else {
        n.number()
    };
    let exact_dist = n.random.chance(50);
    let simplex = if n.random.chance(50) {
        let mut reset = VoronoiSimplex::new();
        reset.reset(CsoPoint::from_shapes(&pose, &*g1, &*g2, dir));
        Simplex::from(&reset)
    } else {
        any_simplex(n)
    };
    let (after, found) = altered(&simplex, |s| {
        numbered(gjk::closest_points(
            &pose, &*g1, &*g2, max_dist, exact_dist, s,
        ))
    });
    let answer = found.unwrap_or(Answer::said(REFUSED));
    let of = (simplex, pose, raw1, raw2, max_dist, exact_dist);
    let refused = found.is_none();
    check.ask(
        KINDS[answer.number],
        CLOSEST_POINTS,
        &of,
        refused,
        &(after, answer),
    )
}
