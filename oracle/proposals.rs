//! How often the direction that the channel answers, proposed to the checker, is accepted: pairs of hulls on the cell's grid, as shapes of the
//! channel whose corners are whole numbers (segments, triangles, boxes), through the embedding. `tools/proposals` builds and runs it.

#[path = "src/random.rs"]
#[allow(dead_code)] // the other generators use the rest
mod random;
#[path = "../bindings/src/lib.rs"]
#[allow(dead_code)] // the cast and the vote are for others
mod separation;

use random::Random;
use separation::{
    certify, propose, run, Answer, Certificate, Outcome, OwnedStores, Pose, Shape, Vector, PROGRAM,
};

type Corner = [i32; 3];

#[derive(Copy, Clone)]
enum Kind {
    Segment,
    Triangle,
    Box,
}

/// A hull as a shape of the channel at a place, and by its corners.
struct Hull {
    shape: Shape,
    place: Corner,
    corners: Vec<i32>,
}

fn vector(c: Corner) -> Vector {
    let [x, y, z] = c.map(|n| n as f32);
    Vector { x, y, z }
}

fn corner(random: &mut Random, size: usize) -> Corner {
    [0; 3].map(|_| random.below(2 * size + 1) as i32 - size as i32)
}

fn hull(random: &mut Random, kind: Kind, size: usize, place: Corner) -> Hull {
    let (shape, local) = match kind {
        Kind::Segment => {
            let (a, b) = (corner(random, size), corner(random, size));
            (
                Shape::Capsule {
                    a: vector(a),
                    b: vector(b),
                    radius: 0.0,
                },
                vec![a, b],
            )
        }
        Kind::Triangle => {
            let (a, b, c) = (
                corner(random, size),
                corner(random, size),
                corner(random, size),
            );
            (
                Shape::Triangle {
                    a: vector(a),
                    b: vector(b),
                    c: vector(c),
                },
                vec![a, b, c],
            )
        }
        Kind::Box => {
            let half = corner(random, size).map(i32::abs);
            let ends = |k: usize| {
                [0, 1, 2].map(|axis| {
                    if k >> axis & 1 == 0 {
                        half[axis]
                    } else {
                        -half[axis]
                    }
                })
            };
            (
                Shape::Cuboid {
                    half_extents: vector(half),
                },
                (0..8).map(ends).collect(),
            )
        }
    };
    let corners = local
        .iter()
        .flat_map(|c| [0, 1, 2].map(|axis| c[axis] + place[axis]))
        .collect();
    Hull {
        shape,
        place,
        corners,
    }
}

fn answer(first: &Hull, second: &Hull, stores: &mut OwnedStores) -> Answer {
    let pose = Pose {
        rotation: [0.0, 0.0, 0.0, 1.0],
        translation: vector(second.place),
    };
    let start = Vector {
        x: 1.0,
        y: 0.0,
        z: 0.0,
    };
    run(
        pose,
        first.shape,
        second.shape,
        start,
        f32::MAX,
        true,
        stores.lend(),
    )
}

/// Pairs whose hulls are apart by the channel's answer, and how many proposals of those and of the others are accepted.
#[derive(Default)]
struct Counts {
    apart: u64,
    accepted: u64,
    others_accepted: u64,
}

fn count(random: &mut Random, kinds: [Kind; 2], size: usize, pairs: u64) -> Counts {
    let mut counts = Counts::default();
    let mut stores = OwnedStores::new(PROGRAM);
    for _ in 0..pairs {
        let first = hull(random, kinds[0], size, [0; 3]);
        let place = corner(random, size);
        let second = hull(random, kinds[1], size, place);
        let a = answer(&first, &second, &mut stores);
        let accepted =
            certify(&first.corners, &second.corners, propose(a.normal)) == Certificate::Accepted;
        if a.outcome == Outcome::ClosestPoints {
            counts.apart += 1;
            counts.accepted += u64::from(accepted);
        } else {
            counts.others_accepted += u64::from(accepted);
        }
    }
    counts
}

fn main() {
    let words: Vec<u64> = std::env::args()
        .skip(1)
        .map(|w| w.parse().expect("a number"))
        .collect();
    let (pairs, seed) = (words[0], words.get(1).copied().unwrap_or(1));
    let kinds = [
        ("segment", Kind::Segment),
        ("triangle", Kind::Triangle),
        ("box", Kind::Box),
    ];
    println!(
        "{:<20} {:>7} {:>9} {:>9} {:>9} {:>9} {:>16}",
        "hulls", "size", "pairs", "apart", "accepted", "declined", "others accepted"
    );
    for (i, first) in kinds.iter().enumerate() {
        for second in &kinds[i..] {
            for size in [10, 1_000, 262_144] {
                let mut random = Random::new(seed);
                let c = count(&mut random, [first.1, second.1], size, pairs);
                let name = format!("{}, {}", first.0, second.0);
                let declined = c.apart - c.accepted;
                println!(
                    "{name:<20} {size:>7} {pairs:>9} {:>9} {:>9} {declined:>9} {:>16}",
                    c.apart, c.accepted, c.others_accepted
                );
            }
        }
    }
}
