//! Every operation of voronoi_simplex3.rs, in sequences from any state.

use crate::answers::Answer;
use crate::check::{caught, Check};
use crate::families::Numbers;
use crate::functions::*;
use crate::port::Compared;
use crate::random::Random;
use crate::reductions::{compare_locations, compare_reductions};
use crate::values::{Simplex, Vertex};
use crate::words::Put;
use glamx::Vec3;
use parry3d::query::gjk::VoronoiSimplex;

/// How many operations follow each other.
const STEPS: usize = 4;

/// Document 01: a value with a dimension or a previous place above 3 is no simplex.
pub fn is_simplex(s: &Simplex) -> bool {
    s.dim <= 3 && s.prev_dim <= 3 && s.prev_vertices.iter().all(|&place| place <= 3)
}

/// What the Rust answers, and the simplex after it. A panic leaves it as it came in, and so does
/// a value that is no simplex.
pub fn altered<T>(
    s: &Simplex,
    alter: impl FnOnce(&mut VoronoiSimplex) -> T,
) -> (Simplex, Option<T>) {
    if !is_simplex(s) {
        return (*s, None);
    }
    let mut simplex = VoronoiSimplex::from(*s);
    match caught(|| alter(&mut simplex)) {
        Some(answer) => (Simplex::from(&simplex), Some(answer)),
        None => (*s, None),
    }
}

fn read<T>(s: &Simplex, answer: impl FnOnce(&VoronoiSimplex) -> T) -> Option<T> {
    altered(s, |simplex| answer(simplex)).1
}

fn vertex(n: &mut Numbers, point: Vec3) -> Vertex {
    Vertex {
        point,
        orig1: n.vector(),
        orig2: n.vector(),
    }
}

/// At most 3, but for one in thirty.
fn small(random: &mut Random) -> usize {
    if random.below(30) == 0 {
        random.pick(&[4, 5, 255, usize::MAX])
    } else {
        random.below(4)
    }
}

pub fn any_simplex(n: &mut Numbers) -> Simplex {
    let points = n.points();
    Simplex {
        prev_vertices: [(); 4].map(|()| small(n.random)),
        prev_proj: [n.number(), n.number(), n.number()],
        prev_dim: small(n.random),
        vertices: points.map(|point| vertex(n, point)),
        proj: [n.number(), n.number(), n.number()],
        dim: small(n.random),
    }
}

/// A vertex to add: one of the family, one that is there, on a line or a plane of those, or just at
/// the tolerance.
fn new_vertex(n: &mut Numbers, s: &Simplex) -> Vertex {
    let [a, b, c, _] = s.vertices.map(|v| v.point);
    let point = match n.random.below(8) {
        0 => s.vertices[n.random.below(4)].point,
        1 => a + (b - a) * 0.5,
        2 => a + ((b - a) + (c - a)) * 0.25,
        3 => a + n.at_tolerance(),
        _ => n.points()[3],
    };
    vertex(n, point)
}

fn compare_reads(check: &mut Check, n: &mut Numbers, s: &Simplex) -> Compared {
    let i = small(n.random);
    let pt = if n.random.chance(50) {
        s.vertices[n.random.below(4)].point
    } else {
        n.vector()
    };
    let of = (*s, i, pt);

    check.same("is_simplex", IS_SIMPLEX, &of, is_simplex(s))?;
    let rust = read(s, |r| r.proj_coord(i));
    check.call("proj_coord", PROJ_COORD, &of, rust)?;
    let rust = read(s, |r| Vertex::from(*r.point(i)));
    check.call("point", POINT, &of, rust)?;
    let rust = read(s, |r| r.prev_proj_coord(i));
    check.call("prev_proj_coord", PREV_PROJ_COORD, &of, rust)?;
    let rust = read(s, |r| Vertex::from(*r.prev_point(i)));
    check.call("prev_point", PREV_POINT, &of, rust)?;
    let rust = read(s, |r| r.contains_point(pt));
    check.call("contains_point", CONTAINS_POINT, &of, rust)?;
    let rust = read(s, |r| r.dimension());
    check.call("dimension", DIMENSION, &of, rust)?;
    let rust = read(s, |r| r.prev_dimension());
    check.call("prev_dimension", PREV_DIMENSION, &of, rust)?;
    let rust = read(s, |r| r.max_sq_len());
    check.call("max_sq_len", MAX_SQ_LEN, &of, rust)
}

/// Every altering operation from the one state; one of the five results is the next state.
fn compare_changes(check: &mut Check, n: &mut Numbers, s: &Simplex) -> Result<Simplex, String> {
    let (i1, i2) = (small(n.random), small(n.random));
    let (pt, dir) = (new_vertex(n, s), n.vector());

    let swapped = altered(s, |r| r.swap(i1, i2));
    compare_done(check, "swap", SWAP, &(*s, i1, i2), &swapped)?;
    let moved = altered(s, |r| r.modify_pnts(&|v| v.translate_mut(dir)));
    compare_done(check, "modify_pnts", MODIFY_PNTS, &(*s, dir), &moved)?;
    let reset = altered(s, |r| r.reset(pt.into()));
    compare_done(check, "reset", RESET, &(*s, pt), &reset)?;
    compare_done(check, "lent: reset", RESET_LENT, &(*s, pt), &reset)?;

    let added = altered(s, |r| r.add_point(pt.into()));
    let name = match added.1 {
        Some(false) => "add_point: false",
        Some(true) => "add_point: true",
        None => "add_point: refused",
    };
    check.altered(name, ADD_POINT, &(*s, pt), added)?;
    check.altered("lent: add_point", ADD_POINT_LENT, &(*s, pt), added)?;
    let reduced = compare_reductions(check, s)?;

    Ok(match n.random.below(8) {
        0 => swapped.0,
        1 => reset.0,
        2..=4 => added.0,
        5 => moved.0,
        _ => reduced,
    })
}

/// An operation that answers nothing but that it was done.
fn compare_done(
    check: &mut Check,
    name: &'static str,
    function: u32,
    of: &impl Put,
    rust: &(Simplex, Option<()>),
) -> Compared {
    let done = rust.1.map(|()| Answer::said(0));
    check.altered(name, function, of, (rust.0, done))
}

pub fn compare_simplices(check: &mut Check, n: &mut Numbers) -> Compared {
    let mut s = if n.random.chance(25) {
        let new = Simplex::from(&VoronoiSimplex::new());
        check.altered("new", NEW, &(), (new, Some(Answer::said(0))))?;
        new
    } else {
        any_simplex(n)
    };
    for _ in 0..STEPS {
        compare_reads(check, n, &s)?;
        compare_locations(check, n, &s)?;
        s = compare_changes(check, n, &s)?;
    }
    Ok(())
}
