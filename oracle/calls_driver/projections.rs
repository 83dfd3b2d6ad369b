//! Projections and what goes with them: point_segment.rs, point_triangle.rs, point_tetrahedron.rs,
//! triangle.rs, point_query.rs and `relative_eq`.

use crate::answers::Answer;
use crate::check::{caught, Check};
use crate::families::Numbers;
use crate::functions::*;
use crate::port::Compared;
use crate::values::Corners;
use glamx::Vec3;
use parry3d::math::DEFAULT_EPSILON;
use parry3d::query::{PointProjection, PointQueryWithLocation};
use parry3d::shape::{
    Segment, SegmentPointLocation, Tetrahedron, TetrahedronPointLocation, Triangle,
    TrianglePointLocation,
};

pub fn placed(point: Vec3, kind: usize, place: u32, weights: [f32; 3]) -> Answer {
    let [x, y, z] = weights;
    Answer {
        kind,
        place: place as usize,
        vectors: [point, Vec3::new(x, y, z), Vec3::ZERO],
        ..Answer::default()
    }
}

pub fn on_segment(segment: &Segment, pt: Vec3) -> Answer {
    let (proj, location) = segment.project_local_point_and_get_location(pt, true);
    match location {
        SegmentPointLocation::OnVertex(i) => placed(proj.point, 0, i, [0.0; 3]),
        SegmentPointLocation::OnEdge([u, v]) => placed(proj.point, 1, 0, [u, v, 0.0]),
    }
}

pub fn on_triangle(triangle: &Triangle, pt: Vec3) -> Answer {
    let (proj, location) = triangle.project_local_point_and_get_location(pt, true);
    match location {
        TrianglePointLocation::OnVertex(i) => placed(proj.point, 0, i, [0.0; 3]),
        TrianglePointLocation::OnEdge(i, [u, v]) => placed(proj.point, 1, i, [u, v, 0.0]),
        TrianglePointLocation::OnFace(i, weights) => placed(proj.point, 2, i, weights),
        TrianglePointLocation::OnSolid => placed(proj.point, 3, 0, [0.0; 3]),
    }
}

pub fn on_tetrahedron(tetrahedron: &Tetrahedron, pt: Vec3) -> Answer {
    let (proj, location) = tetrahedron.project_local_point_and_get_location(pt, true);
    match location {
        TetrahedronPointLocation::OnVertex(i) => placed(proj.point, 0, i, [0.0; 3]),
        TetrahedronPointLocation::OnEdge(i, [u, v]) => placed(proj.point, 1, i, [u, v, 0.0]),
        TetrahedronPointLocation::OnFace(i, weights) => placed(proj.point, 2, i, weights),
        TetrahedronPointLocation::OnSolid => placed(proj.point, 3, 0, [0.0; 3]),
    }
}

const SEGMENT: [&str; 3] = ["segment: vertex", "segment: edge", "segment: refused"];
const TRIANGLE: [&str; 4] = [
    "triangle: vertex",
    "triangle: edge",
    "triangle: face",
    "triangle: solid",
];
const TETRAHEDRON: [&str; 5] = [
    "tetrahedron: vertex",
    "tetrahedron: edge",
    "tetrahedron: face",
    "tetrahedron: solid",
    "tetrahedron: refused",
];

/// The kind of call, by where the Rust's projection lies.
fn name(names: &[&'static str], rust: &Option<Answer>) -> &'static str {
    rust.map_or(names[names.len() - 1], |at| names[at.kind])
}

/// What every function of this file has as its arguments, of which it takes those it needs.
type Given = ([u32; 2], [Vec3; 4], Vec3);

pub fn compare_projections(check: &mut Check, n: &mut Numbers) -> Compared {
    let [a, b, c, d] = n.points();
    let pt = match n.random.below(4) {
        0 => n.vector(),
        1 => a,
        _ => Vec3::ZERO,
    };
    let of: Given = ([0, 0], [a, b, c, d], pt);

    let rust = caught(|| on_segment(&Corners([a, b]).into(), pt));
    check.call(name(&SEGMENT, &rust), PROJECT_SEGMENT, &of, rust)?;
    let rust = caught(|| on_triangle(&Corners([a, b, c]).into(), pt));
    check.call(name(&TRIANGLE, &rust), PROJECT_TRIANGLE, &of, rust)?;
    let rust = caught(|| on_tetrahedron(&Corners([a, b, c, d]).into(), pt));
    check.call(name(&TETRAHEDRON, &rust), PROJECT_TETRAHEDRON, &of, rust)
}

/// The Rust's panic is the port's refusal.
fn rust_weights(kind: u32, number: u32, w: Vec3) -> Answer {
    let location = match kind {
        0 => TrianglePointLocation::OnVertex(number),
        1 => TrianglePointLocation::OnEdge(number, [w.x, w.y]),
        2 => TrianglePointLocation::OnFace(number, [w.x, w.y, w.z]),
        _ => TrianglePointLocation::OnSolid,
    };
    match caught(|| location.barycentric_coordinates()) {
        Some(Some([x, y, z])) => Answer::from(Vec3::new(x, y, z)),
        Some(None) => Answer::said(1),
        None => Answer::said(2),
    }
}

/// A number in the place of a vector.
fn alone(x: f32) -> Vec3 {
    Vec3::new(x, 0.0, 0.0)
}

pub fn compare_tests(check: &mut Check, n: &mut Numbers) -> Compared {
    let [a, b, c, d] = n.points();
    let triangle = Triangle::from(Corners([a, b, c]));
    let of: Given = ([0, 0], [a, b, c, d], Vec3::ZERO);
    let rust = triangle.is_affinely_dependent();
    check.same("is_affinely_dependent", IS_AFFINELY_DEPENDENT, &of, rust)?;

    let tol = if n.random.chance(50) {
        n.number()
    } else {
        DEFAULT_EPSILON * 100.0
    };
    let rust = PointProjection::new(false, a).is_inside_eps(Vec3::ZERO, tol);
    compare_inside(check, "is_inside_eps", a, tol, rust)?;

    // With the inside flag as the Rust sets it, at the one tolerance that is asked of it.
    let tol = DEFAULT_EPSILON * 100.0;
    let (proj, _) = triangle.project_local_point_and_get_location(Vec3::ZERO, true);
    let rust = proj.is_inside_eps(Vec3::ZERO, tol);
    compare_inside(check, "is_inside_eps of a triangle", proj.point, tol, rust)?;

    let (x, epsilon, max_relative) = (n.number(), n.number(), n.number());
    let y = match n.random.below(4) {
        0 => x,
        1 => f32::from_bits(x.to_bits() ^ 1),
        2 => x * (1.0 + epsilon),
        _ => n.number(),
    };
    let first = Vec3::new(x, y, epsilon);
    let of: Given = ([0, 0], [first, alone(max_relative), c, d], Vec3::ZERO);
    let rust = approx::relative_eq(x, y, epsilon, max_relative);
    check.same("relative_eq", RELATIVE_EQ, &of, rust)?;

    // A number above 2, which no projection gives, is refused.
    let (kind, number) = (n.random.below(5) as u32, n.random.below(5) as u32);
    let rust = rust_weights(kind, number, a);
    let of: Given = ([kind, number], [a, b, c, d], Vec3::ZERO);
    check.same(
        "barycentric_coordinates",
        BARYCENTRIC_COORDINATES,
        &of,
        rust,
    )
}

fn compare_inside(
    check: &mut Check,
    name: &'static str,
    point: Vec3,
    tol: f32,
    rust: bool,
) -> Compared {
    let of: Given = (
        [0, 0],
        [point, alone(tol), Vec3::ZERO, Vec3::ZERO],
        Vec3::ZERO,
    );
    check.same(name, IS_INSIDE_EPS, &of, rust)
}
