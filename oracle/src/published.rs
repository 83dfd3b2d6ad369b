//! One record by the crate's public calls: simplex, GJK and, on intersection, a polytope.
//! oracle/crate compiles this file too, so it names nothing that the crate has not got.

use crate::answer::Answer;
use crate::casefile::{Record, Shape};
use parry3d::math::{Pose, Rotation, Vector};
use parry3d::query::gjk::{self, CsoPoint, GJKResult, VoronoiSimplex};
use parry3d::shape::{Ball, Capsule, Cuboid, SupportMap, Triangle};

/// What `EPA::closest_points` gives.
pub type Witnesses = Option<(Vector, Vector, Vector)>;

/// The answer to a record whose shapes are `g1` and `g2`. `polytope` is asked where they meet, and
/// says with its answer what is known of its run. A panic of the crate is the caller's to catch.
pub fn answer<Counts>(
    record: &Record,
    g1: &dyn SupportMap,
    g2: &dyn SupportMap,
    polytope: impl FnOnce(&Pose, &VoronoiSimplex) -> (Witnesses, Counts),
) -> Answer<Counts> {
    let pos12 = pose(record.translation, record.rotation);

    let mut simplex = VoronoiSimplex::new();
    let direction = vector(record.direction);
    simplex.reset(CsoPoint::from_shapes(&pos12, g1, g2, direction));

    let result = gjk::closest_points(
        &pos12,
        g1,
        g2,
        record.max_distance,
        record.exact,
        &mut simplex,
    );
    match result {
        GJKResult::ClosestPoints(p1, p2, dir) => Answer::ClosestPoints([p1, p2, dir]),
        GJKResult::Proximity(dir) => Answer::Proximity(dir),
        GJKResult::NoIntersection(dir) => Answer::NoIntersection(dir),
        GJKResult::Intersection => match polytope(&pos12, &simplex) {
            (Some((p1, p2, normal)), counts) => Answer::Penetration([p1, p2, normal], counts),
            (None, counts) => Answer::NoneFound(counts),
        },
    }
}

/// A shape of the crate.
pub enum Published {
    Ball(Ball),
    Cuboid(Cuboid),
    Capsule(Capsule),
    Triangle(Triangle),
}

impl From<Shape> for Published {
    fn from(shape: Shape) -> Self {
        match shape {
            Shape::Ball([radius]) => Published::Ball(Ball::new(radius)),
            Shape::Cuboid(half_extents) => Published::Cuboid(Cuboid::new(vector(half_extents))),
            Shape::Capsule([ax, ay, az, bx, by, bz, radius]) => Published::Capsule(Capsule::new(
                Vector::new(ax, ay, az),
                Vector::new(bx, by, bz),
                radius,
            )),
            Shape::Triangle([ax, ay, az, bx, by, bz, cx, cy, cz]) => {
                Published::Triangle(Triangle::new(
                    Vector::new(ax, ay, az),
                    Vector::new(bx, by, bz),
                    Vector::new(cx, cy, cz),
                ))
            }
        }
    }
}

impl Published {
    pub fn support_map(&self) -> &dyn SupportMap {
        match self {
            Published::Ball(ball) => ball,
            Published::Cuboid(cuboid) => cuboid,
            Published::Capsule(capsule) => capsule,
            Published::Triangle(triangle) => triangle,
        }
    }
}

pub fn vector([x, y, z]: [f32; 3]) -> Vector {
    Vector::new(x, y, z)
}

/// The quaternion is taken as it is, of unit length or not.
pub fn pose(translation: [f32; 3], [x, y, z, w]: [f32; 4]) -> Pose {
    Pose::from_parts(vector(translation), Rotation::from_xyzw(x, y, z, w))
}
