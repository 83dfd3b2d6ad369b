//! Poses of a cell with two arms: a link of one against a link of the other.

use super::parts;
use crate::casefile::{Record, Shape};
use crate::random::Random;

const LINKS: usize = 6;
/// Metres, from base to tool.
const LENGTHS: [f32; LINKS] = [0.30, 0.45, 0.40, 0.25, 0.15, 0.10];
/// Each joint turns about z or y of the link before it.
const TURNS_ABOUT_Z: [bool; LINKS] = [true, false, false, true, false, true];

/// Arithmetic is in f64 and rounded once into the record.
type Vector = [f64; 3];

fn add(a: Vector, b: Vector) -> Vector {
    [a[0] + b[0], a[1] + b[1], a[2] + b[2]]
}

fn scale(a: Vector, factor: f64) -> Vector {
    a.map(|part| part * factor)
}

fn cross(a: Vector, b: Vector) -> Vector {
    [
        a[1] * b[2] - a[2] * b[1],
        a[2] * b[0] - a[0] * b[2],
        a[0] * b[1] - a[1] * b[0],
    ]
}

fn dot(a: Vector, b: Vector) -> f64 {
    a[0] * b[0] + a[1] * b[1] + a[2] * b[2]
}

#[derive(Copy, Clone)]
struct Quaternion {
    v: Vector,
    w: f64,
}

impl Quaternion {
    const IDENTITY: Self = Self {
        v: [0.0; 3],
        w: 1.0,
    };

    fn times(self, other: Self) -> Self {
        let v = add(
            add(scale(other.v, self.w), scale(self.v, other.w)),
            cross(self.v, other.v),
        );
        let w = self.w * other.w - dot(self.v, other.v);
        Self { v, w }
    }

    fn inverse(self) -> Self {
        Self {
            v: scale(self.v, -1.0),
            w: self.w,
        }
    }

    fn turn(self, v: Vector) -> Vector {
        let doubled = scale(cross(self.v, v), 2.0);
        add(add(v, scale(doubled, self.w)), cross(self.v, doubled))
    }
}

/// A joint's turn. With t the tangent of a quarter of the angle, sine and cosine of the half
/// angle are fractions in t: no library sine, the same file everywhere.
fn joint(random: &mut Random, about_z: bool) -> Quaternion {
    let t = f64::from(random.between(-0.7, 0.7));
    let sine = 2.0 * t / (1.0 + t * t);
    let cosine = (1.0 - t * t) / (1.0 + t * t);
    let v = if about_z {
        [0.0, 0.0, sine]
    } else {
        [0.0, sine, 0.0]
    };
    Quaternion { v, w: cosine }
}

/// How a link is turned against its arm's base, and its length; it lies along its own z.
#[derive(Copy, Clone)]
struct Link {
    turned: Quaternion,
    length: f32,
}

/// The links of one arm, each turned by its joint against the link before it.
fn arm(random: &mut Random) -> [Link; LINKS] {
    let mut turned = Quaternion::IDENTITY;
    [0, 1, 2, 3, 4, 5].map(|number: usize| {
        turned = turned.times(joint(random, TURNS_ABOUT_Z[number]));
        Link {
            turned,
            length: LENGTHS[number],
        }
    })
}

/// A tube, a box, now and then a joint's housing or a sheet held by the tool.
fn link_shape(random: &mut Random, link: &Link) -> Shape {
    let half = 0.5 * link.length;
    let radius = random.between(0.05, 0.12);
    match random.below(20) {
        0..=8 => Shape::Capsule([0.0, 0.0, -half, 0.0, 0.0, half, radius]),
        9..=15 => Shape::Cuboid([radius, random.between(0.05, 0.12), half]),
        16 | 17 => Shape::Ball([radius]),
        _ => {
            let wide = random.between(0.1, 0.4);
            Shape::Triangle([-wide, 0.0, -half, wide, 0.0, -half, 0.0, 0.0, half])
        }
    }
}

/// How far apart the middles of two links are. Cells differ in where the second base stands;
/// here it stands so that these two links come near, most often into one another.
fn apart(random: &mut Random) -> Vector {
    let reach = random.pick(&[0.03, 0.12, 0.25, 0.6]);
    [(); 3].map(|()| f64::from(random.between(-reach, reach)))
}

pub fn arms(random: &mut Random) -> Record {
    let (first, second) = (arm(random), arm(random));
    let (one, two) = (random.pick(&first), random.pick(&second));
    let shapes = [link_shape(random, &one), link_shape(random, &two)];
    let back = one.turned.inverse();
    let relative = back.times(two.turned);
    let [x, y, z] = relative.v.map(|part| part as f32);
    let rotation = [x, y, z, relative.w as f32];
    let translation = back.turn(apart(random)).map(|part| part as f32);
    parts::record(random, shapes, rotation, translation, 0.1)
}
