//! The two operations that the Rust's `project_origin_and_reduce` is made of: the location that is found,
//! and any location applied to any simplex.

use crate::answers::Answer;
use crate::check::{caught, Check};
use crate::families::Numbers;
use crate::functions::*;
use crate::port::Compared;
use crate::projections::{on_segment, on_tetrahedron, on_triangle, placed};
use crate::random::Random;
use crate::simplices::{altered, is_simplex};
use crate::values::{Corners, Simplex};
use crate::words::same;
use glamx::Vec3;
use parry3d::query::gjk::VoronoiSimplex;

/// Where the Rust's projections place the origin. A simplex of dimension 0 is corner 0.
fn located(s: &Simplex) -> Option<Answer> {
    if !is_simplex(s) {
        return None;
    }
    let [a, b, c, d] = s.vertices.map(|v| v.point);
    caught(|| match s.dim {
        0 => placed(a, 0, 0, [0.0; 3]),
        1 => on_segment(&Corners([a, b]).into(), Vec3::ZERO),
        2 => on_triangle(&Corners([a, b, c]).into(), Vec3::ZERO),
        _ => on_tetrahedron(&Corners([a, b, c, d]).into(), Vec3::ZERO),
    })
}

/// The locations of a simplex, by its dimension: kind 0 is a corner, 1 an edge, 2 a face, 3 solid.
fn has_location(dim: usize, kind: u32, number: u32) -> bool {
    match (kind, dim) {
        (0, _) => number as usize <= dim,
        (1, 1) => number == 0,
        (1, 2) => number <= 2,
        (1, 3) => number <= 5,
        (2, 2) => true,
        (2, 3) => number <= 3,
        (3, 2 | 3) => true,
        _ => false,
    }
}

/// The arms of the Rust's function, written again: it applies only the location that it found. The swaps
/// are the published ones.
fn reduced(s: &Simplex, kind: u32, number: u32, w: Vec3) -> Simplex {
    let swapped = |swaps: &[(usize, usize)]| {
        let mut simplex = VoronoiSimplex::from(*s);
        swaps.iter().for_each(|&(i, j)| simplex.swap(i, j));
        Simplex::from(&simplex)
    };
    let edge = |swaps: &[(usize, usize)], u, v| {
        let mut t = swapped(swaps);
        (t.proj[0], t.proj[1], t.dim) = (u, v, 1);
        t
    };
    let face = |place: Option<usize>, weights| {
        let mut t = *s;
        if let Some(i) = place {
            t.vertices[i] = t.vertices[3];
        }
        (t.proj, t.dim) = (weights, 2);
        t
    };
    match (kind, s.dim, number) {
        (0, _, i) => {
            let mut t = swapped(&[(0, i as usize)]);
            (t.proj[0], t.dim) = (1.0, 0);
            t
        }
        (1, 1, _) | (1, _, 0) => edge(&[], w.x, w.y),
        (1, 2, 1) => edge(&[(0, 2)], w.y, w.x),
        (1, 2, _) | (1, _, 1) => edge(&[(1, 2)], w.x, w.y),
        (1, _, 2) => edge(&[(1, 3)], w.x, w.y),
        (1, _, 3) => edge(&[(0, 2)], w.y, w.x),
        (1, _, 4) => edge(&[(0, 3)], w.y, w.x),
        (1, _, _) => edge(&[(0, 2), (1, 3)], w.x, w.y),
        (2, 2, _) | (2, _, 0) => face(None, [w.x, w.y, w.z]),
        (2, _, 1) => face(Some(2), [w.x, w.y, w.z]),
        (2, _, 2) => face(Some(1), [w.x, w.z, w.y]),
        (2, _, _) => face(Some(0), [w.z, w.x, w.y]),
        _ => *s,
    }
}

/// At most 7, but for one in thirty.
fn any_number(random: &mut Random) -> u32 {
    if random.below(30) == 0 {
        random.pick(&[8, 255, 256, u32::MAX])
    } else {
        random.below(8) as u32
    }
}

/// What the reduction of a simplex to a location must leave and answer: 0, document 01's refusal 7, or 2.
fn applied(s: &Simplex, kind: u32, number: u32, weights: Vec3) -> (&'static str, Simplex, usize) {
    if !is_simplex(s) {
        return ("apply_location: no simplex", *s, 2);
    }
    if !has_location(s.dim, kind, number) {
        return ("apply_location: no such location", *s, 7);
    }
    (
        "apply_location: taken",
        reduced(s, kind, number, weights),
        0,
    )
}

/// The origin's projection, and any location applied, by value and lent.
pub fn compare_locations(check: &mut Check, n: &mut Numbers, s: &Simplex) -> Compared {
    compare_projection(check, s)?;
    let (kind, number) = (n.random.below(4) as u32, any_number(n.random));
    let weights = n.vector();
    let (name, after, answer) = applied(s, kind, number, weights);
    let of = (*s, [kind, number], weights);
    for (name, function) in [
        (name, APPLY_LOCATION),
        ("lent: apply_location", APPLY_LOCATION_LENT),
    ] {
        check.altered(name, function, &of, (after, Some(Answer::said(answer))))?;
    }
    Ok(())
}

/// The projection with its location; the published function's own point, and that it leaves the simplex, is looked at here.
fn compare_projection(check: &mut Check, s: &Simplex) -> Compared {
    let rust = located(s);
    let (after, point) = altered(s, |simplex| simplex.project_origin());
    let found = rust.map(|answer| answer.vectors[0]);
    if !same(&(after, Answer::from(point)), &(*s, Answer::from(found))) {
        return Err(format!(
            "the Rust's own project_origin of {s:X?}: {point:X?}, {found:X?}"
        ));
    }
    check.call(
        "project_origin",
        PROJECT_ORIGIN,
        &(*s, 0_usize, Vec3::ZERO),
        rust,
    )
}

/// The simplex reduced as the Rust's one function does: by value, the two operations in turn, of which the first is compared above and the
/// second is applied here to the location that was found; and lent, both as one.
pub fn compare_reductions(check: &mut Check, s: &Simplex) -> Result<Simplex, String> {
    let (after, point) = altered(s, |simplex| simplex.project_origin_and_reduce());
    let found = located(s);
    if let Some(at) = found {
        let of = (*s, [at.kind as u32, at.place as u32], at.vectors[1]);
        check.altered(
            reduction(s, &after),
            APPLY_LOCATION,
            &of,
            (after, point.map(|_| Answer::said(0))),
        )?;
    }
    let name = match (found, is_simplex(s)) {
        (Some(_), _) => "lent: reduce",
        (None, true) => "lent: reduce, a panic",
        (None, false) => "lent: reduce, no simplex",
    };
    check.altered(name, REDUCE_LENT, s, (after, found))?;
    Ok(after)
}

/// The kind of a reduction, by the dimensions before and after.
fn reduction(before: &Simplex, after: &Simplex) -> &'static str {
    const KINDS: [[&str; 4]; 4] = [
        ["reduce 0 to 0", "", "", ""],
        ["reduce 1 to 0", "reduce 1 to 1", "", ""],
        ["reduce 2 to 0", "reduce 2 to 1", "reduce 2 to 2", ""],
        [
            "reduce 3 to 0",
            "reduce 3 to 1",
            "reduce 3 to 2",
            "reduce 3 to 3",
        ],
    ];
    KINDS[before.dim][after.dim]
}
