//! `EPA::closest_points` of epa3.rs, from any simplex and over stores of any length: with the recursive walk, and with the plain one.

use crate::answers::Answer;
use crate::check::Check;
use crate::families::{Numbers, FAMILIES};
use crate::functions::{POLYTOPE, POLYTOPE_PLAIN};
use crate::port::Compared;
use crate::random::Random;
use crate::shapes::{direction, raw_shape, rust_shape};
use crate::simplices::{any_simplex, is_simplex};
use crate::stores::{Stores, Walk};
use crate::values::{RawShape, Simplex};
use glamx::{Pose3, Vec3};
use parry3d::lent::{NoRoom, Store};
use parry3d::query::epa::epa3::EPA;
use parry3d::query::epa::epa3_plain::EPA as PlainEpa;
use parry3d::query::epa::{Contents, Counts, Readable, Rooms, WayOut};
use parry3d::query::gjk::{self, CsoPoint, GJKResult, VoronoiSimplex};
use parry3d::shape::SupportMap;
use std::panic::{catch_unwind, AssertUnwindSafe};

/// The ways out in the order of the port's numbers; from `NO_ANSWER` on there is none.
const WAYS: [&str; 18] = [
    "single point",
    "converged",
    "stuck",
    "new face nearer",
    "101 expansions",
    "heap empty",
    "key refused at the start",
    "no starting face holds",
    "empty silhouette",
    "all silhouette faces deleted",
    "key refused later",
    "not a simplex",
    "no third vertex",
    "no room: vertices",
    "no room: faces",
    "no room: edges",
    "no room: heap",
    "no room: pending",
];
const NO_ANSWER: usize = 6;
const NOT_A_SIMPLEX: usize = 11;
const NO_THIRD_VERTEX: usize = 12;

/// Words of the arguments before the lists: a simplex, a pose and two shapes.
const BEFORE_LISTS: usize = 54 + 7 + 2 * 10;

/// What a run is given besides the stores.
struct Case {
    pose: Pose3,
    raw1: RawShape,
    raw2: RawShape,
    simplex: Simplex,
}

/// How a run ended, and what it left in its stores.
struct Run {
    way: usize,
    values: [Vec3; 3],
    counts: Counts,
    contents: Option<Contents>,
}

fn way_number(way: WayOut) -> usize {
    match way {
        WayOut::Start => unreachable!("a run that returns has a way out"),
        WayOut::DegenerateStart => 0,
        WayOut::Converged => 1,
        WayOut::NearerFace => 3,
        WayOut::LastExpansion => 4,
        WayOut::HeapEmpty => 5,
        WayOut::KeyRefusedAtStart => 6,
        WayOut::NoStartingFace => 7,
        WayOut::EmptySilhouette => 8,
        WayOut::NoNewFace => 9,
        WayOut::KeyRefusedLater => 10,
    }
}

fn store_number(store: Store) -> usize {
    match store {
        Store::Vertices => 13,
        Store::Faces => 14,
        Store::Edges => 15,
        Store::Heap => 16,
        Store::Pending => 17,
    }
}

/// The published run, or the one with the plain walk, over so much room.
fn rust_run(epa: &mut impl Readable, case: &Case, rooms: Rooms) -> Run {
    if !is_simplex(&case.simplex) {
        return Run {
            way: NOT_A_SIMPLEX,
            values: [Vec3::ZERO; 3],
            counts: Counts::default(),
            contents: None,
        };
    }
    let simplex = VoronoiSimplex::from(case.simplex);
    let (g1, g2) = (rust_shape(&case.raw1), rust_shape(&case.raw2));
    epa.lend(rooms);
    let found = catch_unwind(AssertUnwindSafe(|| {
        epa.run(&case.pose, &*g1, &*g2, &simplex)
    }));
    let (way, values) = match found {
        Ok(Some((p1, p2, normal))) => (way_number(epa.way_out()), [p1, p2, normal]),
        Ok(None) => (way_number(epa.way_out()), [Vec3::ZERO; 3]),
        Err(cause) => {
            let full = cause.downcast::<NoRoom>();
            let way = full.map_or(NO_THIRD_VERTEX, |full| store_number(full.0));
            (way, [Vec3::ZERO; 3])
        }
    };
    Run {
        way,
        values,
        counts: epa.counts(),
        contents: Some(epa.contents()),
    }
}

/// The room that a run with no limit needs, up to what the programs lend.
fn needed(run: &Run) -> Rooms {
    let used = run.contents.as_ref().map_or([0; 5], |contents| {
        [
            contents.vertices.len(),
            contents.most_silhouette,
            contents.faces.len(),
            contents.most_heap,
            contents.most_pending,
        ]
    });
    let [vertices, edges, faces, heap, pending] = used;
    Rooms {
        vertices: vertices.min(Rooms::PROGRAM.vertices),
        edges: edges.min(Rooms::PROGRAM.edges),
        faces: faces.min(Rooms::PROGRAM.faces),
        heap: heap.min(Rooms::PROGRAM.heap),
        pending: pending.min(Rooms::PROGRAM.pending),
    }
}

/// Half have what the run needs or a little more, one in fifty what the programs lend; of the others one store is short, or all are.
fn lent(random: &mut Random, need: Rooms, walk: Walk) -> Rooms {
    if random.below(50) == 0 {
        return Rooms::PROGRAM;
    }
    let stores = match walk {
        Walk::Recursive => 4,
        Walk::Plain => 5,
    };
    let short = random.below(2 * (stores + 1));
    let mut room = |store: usize, need: usize| {
        if short == store || short == stores {
            random.below(need + 1)
        } else {
            need + random.below(3)
        }
    };
    let mut rooms = Rooms {
        vertices: room(0, need.vertices),
        edges: room(1, need.edges),
        faces: room(2, need.faces),
        heap: room(3, need.heap),
        pending: 0,
    };
    if walk == Walk::Plain {
        rooms.pending = room(4, need.pending);
        if random.below(10) == 0 {
            rooms.pending = random.below(Rooms::PROGRAM.pending + 1);
        }
    }
    rooms
}

/// Seven runs in ten start from where GJK ended, if the shapes meet, the others from any simplex.
fn case(n: &mut Numbers) -> Case {
    let (raw1, raw2) = (raw_shape(n), raw_shape(n));
    let mut pose = n.pose();
    if n.random.chance(60) {
        pose.translation = pose.translation * 0.125;
    }
    let any = any_simplex(n);
    let simplex = if n.random.chance(70) {
        let (g1, g2) = (rust_shape(&raw1), rust_shape(&raw2));
        let dir = direction(n, &raw1);
        met(&pose, &*g1, &*g2, dir).unwrap_or(any)
    } else {
        any
    };
    Case {
        pose,
        raw1,
        raw2,
        simplex,
    }
}

/// The simplex that GJK ends with, where the shapes meet.
fn met(pose: &Pose3, g1: &dyn SupportMap, g2: &dyn SupportMap, dir: Vec3) -> Option<Simplex> {
    let mut simplex = VoronoiSimplex::new();
    simplex.reset(CsoPoint::from_shapes(pose, g1, g2, dir));
    let found = catch_unwind(AssertUnwindSafe(|| {
        gjk::closest_points(pose, g1, g2, f32::MAX, true, &mut simplex)
    }));
    matches!(found, Ok(GJKResult::Intersection)).then(|| Simplex::from(&simplex))
}

fn compare_run(
    check: &mut Check,
    n: &mut Numbers,
    epa: &mut impl Readable,
    walk: Walk,
) -> Compared {
    let case = case(n);
    let need = needed(&rust_run(epa, &case, Rooms::NO_LIMIT));
    let rooms = lent(n.random, need, walk);
    let run = rust_run(epa, &case, rooms);
    let before = Stores::lent(n.random, rooms, walk);
    let mut after = before.clone();
    if let Some(contents) = &run.contents {
        after.write(contents);
    }
    let counts = run.counts;
    let counts = [
        counts.expansions,
        counts.faces_made,
        counts.faces_live,
        counts.most_edges,
        counts.missed,
    ];
    let answer = (Answer::of_vectors(run.way, run.values), counts, after);
    let lists = before.lists(BEFORE_LISTS);
    let of = (case.simplex, case.pose, case.raw1, case.raw2, lists);
    let function = match walk {
        Walk::Recursive => POLYTOPE,
        Walk::Plain => POLYTOPE_PLAIN,
    };
    check.ask(WAYS[run.way], function, &of, run.way >= NO_ANSWER, &answer)
}

/// So many runs, the families in turn.
fn compare_all(
    check: &mut Check,
    count: u64,
    seed: u64,
    epa: &mut impl Readable,
    walk: Walk,
) -> Compared {
    let mut random = Random::new(seed);
    for family in FAMILIES.into_iter().cycle().take(count as usize) {
        check.family = family;
        compare_run(check, &mut Numbers::new(&mut random, family), epa, walk)?;
    }
    Ok(())
}

/// With the recursive walk, over four stores.
pub fn compare_runs(check: &mut Check, count: u64, seed: u64) -> Compared {
    compare_all(check, count, seed, &mut EPA::default(), Walk::Recursive)
}

/// With the plain walk, over five.
pub fn compare_plain_runs(check: &mut Check, count: u64, seed: u64) -> Compared {
    compare_all(check, count, seed, &mut PlainEpa::default(), Walk::Plain)
}
