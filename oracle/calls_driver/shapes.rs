//! Support points and vertices: ball.rs, cuboid.rs, capsule.rs, the triangle's rule, cso_point.rs.

use crate::check::Check;
use crate::families::Numbers;
use crate::functions::*;
use crate::port::Compared;
use crate::values::{RawShape, Vertex};
use glamx::Vec3;
use parry3d::query::gjk::CsoPoint;
use parry3d::shape::{Ball, Capsule, Cuboid, SupportMap, Triangle};

pub fn raw_shape(n: &mut Numbers) -> RawShape {
    let [p, q, r, _] = n.points();
    RawShape {
        kind: n.random.below(4) as u32,
        p,
        q,
        r,
    }
}

pub fn rust_shape(g: &RawShape) -> Box<dyn SupportMap> {
    match g.kind {
        0 => Box::new(Ball::new(g.p.x)),
        1 => Box::new(Cuboid::new(g.p)),
        2 => Box::new(Capsule::new(g.p, g.q, g.r.x)),
        _ => Box::new(Triangle::new(g.p, g.q, g.r)),
    }
}

/// A direction: of the family, zero, or one in which two of the shape's corners tie.
pub fn direction(n: &mut Numbers, g: &RawShape) -> Vec3 {
    match n.random.below(8) {
        0 => Vec3::ZERO,
        1 => (g.q - g.p).cross(g.r - g.p),
        2 => (g.q - g.p).cross(Vec3::Y),
        _ => n.vector(),
    }
}

pub fn compare_support_points(check: &mut Check, n: &mut Numbers) -> Compared {
    let (raw1, raw2) = (raw_shape(n), raw_shape(n));
    let (pose, dir) = (n.pose(), direction(n, &raw1));
    let (g1, g2) = (rust_shape(&raw1), rust_shape(&raw2));
    let of = (raw1, raw2, pose, dir);

    let rust = g1.local_support_point(dir);
    check.same("local_support_point", LOCAL_SUPPORT_POINT, &of, rust)?;
    let rust = g1.local_support_point_toward(dir);
    check.same(
        "local_support_point_toward",
        LOCAL_SUPPORT_POINT_TOWARD,
        &of,
        rust,
    )?;
    let rust = g1.support_point(&pose, dir);
    check.same("support_point", SUPPORT_POINT, &of, rust)?;
    let rust = g1.support_point_toward(&pose, dir);
    check.same("support_point_toward", SUPPORT_POINT_TOWARD, &of, rust)?;
    let rust = Vertex::from(CsoPoint::from_shapes(&pose, &*g1, &*g2, dir));
    check.same("from_shapes", FROM_SHAPES, &of, rust)?;
    let rust = Vertex::from(CsoPoint::from_shapes_toward(&pose, &*g1, &*g2, dir));
    check.same("from_shapes_toward", FROM_SHAPES_TOWARD, &of, rust)
}

pub fn compare_vertices(check: &mut Check, n: &mut Numbers) -> Compared {
    let [a, b, c, d] = n.points();
    let v = CsoPoint::new_with_point(a, b, c);
    let w = CsoPoint::new_with_point(d, c, b);
    let of = (Vertex::from(v), Vertex::from(w), d);

    let made = [
        ("CsoPoint::new", VERTEX_NEW, CsoPoint::new(b, c)),
        ("CsoPoint::new_with_point", VERTEX_NEW_WITH_POINT, v),
        (
            "CsoPoint::single_point",
            VERTEX_SINGLE_POINT,
            CsoPoint::single_point(a),
        ),
        ("CsoPoint::origin", VERTEX_ORIGIN, CsoPoint::origin()),
        ("CsoPoint::translate", VERTEX_TRANSLATE, v.translate(d)),
    ];
    for (name, function, rust) in made {
        check.same(name, function, &of, Vertex::from(rust))?;
    }
    check.same("CsoPoint - CsoPoint", VERTEX_SUB, &of, v - w)
}
