//! A record as a call of the port's library, through the crate of bindings/.

#[path = "../bindings/src/lib.rs"]
#[allow(dead_code)]
mod separation;

use crate::casefile::{self, Record};
use crate::Checksum;
use separation::{Answer, Outcome, OwnedStores, Pose, Shape, Vector, PROGRAM};

pub struct Call {
    pose: Pose,
    first: Shape,
    second: Shape,
    direction: Vector,
    max_distance: f32,
    exact: bool,
}

fn vector([x, y, z]: [f32; 3]) -> Vector {
    Vector { x, y, z }
}

fn shape(shape: casefile::Shape) -> Shape {
    match shape {
        casefile::Shape::Ball([radius]) => Shape::Ball { radius },
        casefile::Shape::Cuboid(half_extents) => Shape::Cuboid { half_extents: vector(half_extents) },
        casefile::Shape::Capsule([ax, ay, az, bx, by, bz, radius]) => {
            Shape::Capsule { a: vector([ax, ay, az]), b: vector([bx, by, bz]), radius }
        }
        casefile::Shape::Triangle([ax, ay, az, bx, by, bz, cx, cy, cz]) => {
            Shape::Triangle { a: vector([ax, ay, az]), b: vector([bx, by, bz]), c: vector([cx, cy, cz]) }
        }
    }
}

impl From<&Record> for Call {
    fn from(record: &Record) -> Self {
        Self {
            pose: Pose { rotation: record.rotation, translation: vector(record.translation) },
            first: shape(record.first),
            second: shape(record.second),
            direction: vector(record.direction),
            max_distance: record.max_distance,
            exact: record.exact,
        }
    }
}

/// The stores that each call is lent: as long as the program's.
pub struct Room(OwnedStores);

impl Default for Room {
    fn default() -> Self {
        Self(OwnedStores::new(PROGRAM))
    }
}

impl Call {
    pub fn run(&self, room: &mut Room) -> Answer {
        separation::run(
            self.pose,
            self.first,
            self.second,
            self.direction,
            self.max_distance,
            self.exact,
            room.0.lend(),
        )
    }
}

/// What a line of output has of an answer, in its order.
pub fn add_answer(checksum: &mut Checksum, answer: &Answer) {
    use Outcome::{ClosestPoints, NoAnswer, NoIntersection, NoRoom, Penetration, Proximity};
    checksum.add(u64::from(answer.outcome.letter()));
    let vectors: &[Vector] = match answer.outcome {
        ClosestPoints | Penetration => &[answer.point1, answer.point2, answer.normal],
        Proximity | NoIntersection => &[answer.normal],
        _ => &[],
    };
    for vector in vectors {
        checksum.add_float(vector.x);
        checksum.add_float(vector.y);
        checksum.add_float(vector.z);
    }
    if matches!(answer.outcome, Penetration | NoAnswer | NoRoom) {
        let counts = answer.counts;
        for count in [counts.expansions, counts.made, counts.live, counts.edges, counts.missed] {
            checksum.add(count as u64);
        }
    }
}
