//! Two links of two arms, as hulls in millimetres: does the direction that the channel finds between them show that they are apart?
//! Prints the numbers of the checker's answers: accepted; declined with the hulls exchanged, and with no direction at all.

use separation::{certify, propose, run, GridVector, OwnedStores, Pose, Shape, Vector, PROGRAM};

const UPPER: [[i32; 3]; 3] = [[0, 0, -1000], [0, 0, 1000], [-500, 250, 0]];
const LOWER: [[i32; 3]; 3] = [[500, 0, 0], [750, 500, 250], [1000, -500, 1000]];

/// The triangle in metres.
fn triangle(corners: [[i32; 3]; 3]) -> Shape {
    let [a, b, c] = corners.map(|c| c.map(|n| n as f32 / 1000.0)).map(|[x, y, z]| Vector { x, y, z });
    Shape::Triangle { a, b, c }
}

fn direction_between() -> GridVector {
    let mut stores = OwnedStores::new(PROGRAM);
    let pose = Pose { rotation: [0.0, 0.0, 0.0, 1.0], translation: Vector::default() };
    let start = Vector { x: 1.0, y: 0.0, z: 0.0 };
    propose(run(pose, triangle(UPPER), triangle(LOWER), start, 10.0, true, stores.lend()).normal)
}

fn main() {
    assert!(separation::environment(), "the floating-point environment is not the one that every channel must have");
    let direction = direction_between();
    let (upper, lower) = (UPPER.concat(), LOWER.concat());
    println!("{:2}", certify(&upper, &lower, direction) as u32);
    println!("{:2}", certify(&lower, &upper, direction) as u32);
    println!("{:2}", certify(&upper, &lower, GridVector::default()) as u32);
}
