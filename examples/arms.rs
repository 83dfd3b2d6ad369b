//! Two links of two arms: how far apart are they? Prints the lines that the program prints for the same cases.

use separation::{run, vote, Answer, Outcome, OwnedStores, Pose, Shape, Vector, Verdict, PROGRAM};

fn vector(x: f32, y: f32, z: f32) -> Vector {
    Vector { x, y, z }
}

fn links(along_x: f32) -> Answer {
    let upper = Shape::Capsule { a: vector(0.0, 0.0, -1.0), b: vector(0.0, 0.0, 1.0), radius: 0.25 };
    let lower = Shape::Cuboid { half_extents: vector(0.5, 0.25, 1.0) };
    let pose = Pose { rotation: [0.0, 0.0, 0.0, 1.0], translation: vector(along_x, 0.0, 0.5) };
    let mut stores = OwnedStores::new(PROGRAM);
    run(pose, upper, lower, vector(1.0, 0.0, 0.0), 10.0, true, stores.lend())
}

fn hex(v: Vector) -> String {
    let bits = |x: f32| if x.is_nan() { 0x7FC0_0000 } else { x.to_bits() };
    format!(" {:08X} {:08X} {:08X}", bits(v.x), bits(v.y), bits(v.z))
}

fn line(number: usize, a: Answer) -> String {
    use Outcome::{ClosestPoints, NoAnswer, NoRoom, Penetration};
    let points = if matches!(a.outcome, ClosestPoints | Penetration) { hex(a.point1) + &hex(a.point2) } else { String::new() };
    let normal = if a.outcome.number() == 0 { hex(a.normal) } else { String::new() };
    let c = a.counts;
    let counts = if matches!(a.outcome, Penetration | NoAnswer | NoRoom) {
        format!(" {} {} {} {} {}", c.expansions, c.made, c.live, c.edges, c.missed)
    } else {
        String::new()
    };
    format!("{number} {}{points}{normal}{counts}", a.outcome.letter())
}

fn odd(verdict: Verdict) -> Option<usize> {
    match verdict {
        Verdict::Agreed { odd, .. } => odd,
        Verdict::NoTwoAgree => panic!("no two agree"),
    }
}

fn main() {
    assert!(separation::environment(), "the floating-point environment is not the one that every channel must have");
    let (apart, meet) = (links(1.0), links(0.5));
    println!("separation 1\n{}\n{}\ncases 2", line(1, apart), line(2, meet));
    assert_eq!(odd(vote(meet, links(0.5), links(0.5))), None);
    assert_eq!(odd(vote(meet, apart, meet)), Some(2));
    // three NaNs agree; -0 does not pass for +0
    let with = |x: f32| Answer { normal: Vector { x, ..meet.normal }, ..meet };
    assert_eq!(odd(vote(with(f32::NAN), with(f32::NAN), with(f32::NAN))), None);
    assert_eq!(odd(vote(with(0.0), with(-0.0), with(0.0))), Some(2));
    assert_eq!(vote(with(0.0), with(1.0), with(2.0)), Verdict::NoTwoAgree);
}
