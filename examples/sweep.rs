//! One arm's link swept towards the other's: when do they meet? Prints the lines that the program prints for sweep.txt.

use separation::{cast, Cast, Pose, Ray, Shape, Vector};

fn vector(x: f32, y: f32, z: f32) -> Vector {
    Vector { x, y, z }
}

fn swept(along_x: f32, max_time: f32) -> Cast {
    let upper = Shape::Capsule { a: vector(0.0, 0.0, -1.0), b: vector(0.0, 0.0, 1.0), radius: 0.25 };
    let lower = Shape::Cuboid { half_extents: vector(0.5, 0.25, 1.0) };
    let pose = Pose { rotation: [0.0, 0.0, 0.0, 1.0], translation: vector(1.0, 0.0, 0.5) };
    let ray = Ray { origin: vector(0.0, 0.0, 0.0), dir: vector(along_x, 0.0, 0.0) };
    cast(pose, upper, lower, ray, max_time)
}

fn line(cast: Cast) -> String {
    let bits = |x: f32| if x.is_nan() { 0x7FC0_0000 } else { x.to_bits() };
    let zero = Vector::default();
    let (number, time, dir) = match cast {
        Cast::Impact { time, dir } => (0, time, dir),
        Cast::Miss => (6, 0.0, zero),
        Cast::Refused => (2, 0.0, zero),
    };
    format!("{number} {:08X} {:08X} {:08X} {:08X}", bits(time), bits(dir.x), bits(dir.y), bits(dir.z))
}

fn main() {
    assert!(separation::environment(), "the floating-point environment is not the one that every channel must have");
    for (along_x, max_time) in [(-1.0, 2.0), (-1.0, 0.2), (1.0, 2.0)] {
        println!("{}", line(swept(along_x, max_time)));
    }
}
