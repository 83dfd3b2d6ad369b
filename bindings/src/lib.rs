//! The separation channel, the vote, the cast and the checker of a separating direction in Rust, over libseparation.a, for x86-64 (`tools/install`).
//! Nothing is allocated by a call and nothing kept. include/separation.h says what holds for every caller: the frame, the normal's sense, the start
//! direction, the floating-point environment (`environment`), the stack. The contracts are in crates/embedding.

// ---- shapes and poses

#[repr(C)]
#[derive(Copy, Clone, Debug, Default, PartialEq)]
pub struct Vector {
    pub x: f32,
    pub y: f32,
    pub z: f32,
}

/// A rotation (quaternion x, y, z, w, which is not normalised), then a translation.
#[repr(C)]
#[derive(Copy, Clone, Debug, PartialEq)]
pub struct Pose {
    pub rotation: [f32; 4],
    pub translation: Vector,
}

#[derive(Copy, Clone, Debug, PartialEq)]
pub enum Shape {
    Ball { radius: f32 },
    Cuboid { half_extents: Vector },
    Capsule { a: Vector, b: Vector, radius: f32 },
    Triangle { a: Vector, b: Vector, c: Vector },
}

/// Document 01's kind of a shape.
#[repr(u32)]
#[derive(Copy, Clone, Debug, PartialEq, Eq)]
pub enum Kind {
    Ball = 0,
    Cuboid = 1,
    Capsule = 2,
    Triangle = 3,
}

// ---- answers

/// By its letter, as the program prints it.
#[repr(u8)]
#[derive(Copy, Clone, Debug, PartialEq, Eq)]
pub enum Outcome {
    /// Apart: the nearest points, and the direction from the first to the second as normal.
    ClosestPoints = b'D',
    /// Apart and near, `exact` not asked: the direction in which the search stood as normal.
    Proximity = b'M',
    /// Farther apart than the largest distance, or the search did not settle: the direction as normal.
    NoIntersection = b'S',
    /// They meet: two points, the normal, and the counts of the run.
    Penetration = b'P',
    /// Refusal 1, with counts.
    NoAnswer = b'N',
    /// Refusal 2.
    Panic = b'X',
    /// Refusal 3, with counts.
    NoRoom = b'R',
    /// Refusal 4. No `Shape` is malformed, so `run` never answers it; a channel of another caller may, and it can be voted on.
    Malformed = b'B',
}

impl Outcome {
    const ALL: [Self; 8] = [
        Self::ClosestPoints,
        Self::Proximity,
        Self::NoIntersection,
        Self::Penetration,
        Self::NoAnswer,
        Self::Panic,
        Self::NoRoom,
        Self::Malformed,
    ];

    pub fn letter(self) -> char {
        char::from(self as u8)
    }

    /// The outcome of a letter, as it comes from a channel elsewhere.
    pub fn of_letter(letter: u8) -> Option<Self> {
        Self::ALL.into_iter().find(|outcome| *outcome as u8 == letter)
    }

    /// Document 01's number: 0, or the refusal's.
    pub fn number(self) -> u32 {
        separation_number(self as u8)
    }
}

/// Expansions completed, faces made, faces live at the end, most edges in one pass, lookups that missed.
#[repr(C)]
#[derive(Copy, Clone, Debug, Default, PartialEq, Eq)]
pub struct Counts {
    pub expansions: usize,
    pub made: usize,
    pub live: usize,
    pub edges: usize,
    pub missed: usize,
}

/// What a channel answers. What the outcome has not got is zero. (`==` compares floats as Rust does; `vote` by their bits.)
#[derive(Copy, Clone, Debug, PartialEq)]
pub struct Answer {
    pub outcome: Outcome,
    pub point1: Vector,
    pub point2: Vector,
    pub normal: Vector,
    pub counts: Counts,
}

/// What three answers give.
#[derive(Copy, Clone, Debug, PartialEq)]
pub enum Verdict {
    /// The answer of two that agree, and the number of the channel that differs, 1 to 3, if one does.
    Agreed { answer: Answer, odd: Option<usize> },
    /// Refusal 5.
    NoTwoAgree,
}

// ---- the stores that a run works on

/// One record of the silhouette's store.
#[repr(C)]
#[derive(Copy, Clone, Debug, Default, PartialEq, Eq)]
pub struct Edge {
    pub face: usize,
    pub corner: usize,
}

/// How many records each store has room for.
#[derive(Copy, Clone, Debug, PartialEq, Eq)]
pub struct Room {
    pub vertices: usize,
    pub faces: usize,
    pub edges: usize,
    pub heap: usize,
    pub pending: usize,
}

/// With this no run is refused for room.
pub const ENOUGH: Room = Room { vertices: 105, faces: 10_710, edges: 206, heap: 10_710, pending: 206 };

/// What the program lends; a run that needs more faces or heap entries is answered `NoRoom`.
pub const PROGRAM: Room = Room { faces: 1_000, heap: 1_000, ..ENOUGH };

/// The stores that a run borrows: nine numbers a vertex; of a face six numbers in `ids`, six in `floats` and its deletion
/// mark; one record an edge; two slices for the heap; two numbers a pending question of the silhouette's walk. A store of several slices
/// is as long as the fewest whole records that one holds.
pub struct Stores<'a> {
    pub vertices: &'a mut [f32],
    pub ids: &'a mut [usize],
    pub floats: &'a mut [f32],
    pub deleted: &'a mut [u8],
    pub edges: &'a mut [Edge],
    pub heap_ids: &'a mut [usize],
    pub heap_keys: &'a mut [f32],
    pub pending: &'a mut [usize],
}

/// Stores of a room, allocated once, for a caller that has none of its own.
pub struct OwnedStores {
    vertices: Vec<f32>,
    ids: Vec<usize>,
    floats: Vec<f32>,
    deleted: Vec<u8>,
    edges: Vec<Edge>,
    heap_ids: Vec<usize>,
    heap_keys: Vec<f32>,
    pending: Vec<usize>,
}

impl OwnedStores {
    pub fn new(room: Room) -> Self {
        Self {
            vertices: vec![0.0; 9 * room.vertices],
            ids: vec![0; 6 * room.faces],
            floats: vec![0.0; 6 * room.faces],
            deleted: vec![0; room.faces],
            edges: vec![Edge::default(); room.edges],
            heap_ids: vec![0; room.heap],
            heap_keys: vec![0.0; room.heap],
            pending: vec![0; 2 * room.pending],
        }
    }

    pub fn lend(&mut self) -> Stores<'_> {
        Stores {
            vertices: &mut self.vertices,
            ids: &mut self.ids,
            floats: &mut self.floats,
            deleted: &mut self.deleted,
            edges: &mut self.edges,
            heap_ids: &mut self.heap_ids,
            heap_keys: &mut self.heap_keys,
            pending: &mut self.pending,
        }
    }
}

// ---- the cast, the checker of a separating direction and the proposer

#[repr(C)]
#[derive(Copy, Clone, Debug, PartialEq)]
pub struct Ray {
    pub origin: Vector,
    pub dir: Vector,
}

#[derive(Copy, Clone, Debug, PartialEq)]
pub enum Cast {
    /// `time` is in lengths of the ray's direction.
    Impact { time: f32, dir: Vector },
    Miss,
    /// Refusal 2.
    Refused,
}

/// A corner or a direction on the cell's grid: whole numbers from -1,048,576 to 1,048,576.
#[repr(C)]
#[derive(Copy, Clone, Debug, Default, PartialEq, Eq)]
pub struct GridVector {
    pub x: i32,
    pub y: i32,
    pub z: i32,
}

/// By its number.
#[repr(u32)]
#[derive(Copy, Clone, Debug, PartialEq, Eq)]
pub enum Certificate {
    Accepted = 0,
    /// A hull does not have 1 to 64 corners.
    BadLength = 9,
    /// A number of a hull or of the direction is not on the grid.
    OutOfRange = 10,
    /// Two corners are not strictly apart along the direction.
    NotSeparated = 11,
}

// ---- as they go over to C

#[repr(C)]
struct ShapeRecord {
    kind: Kind,
    p: Vector,
    q: Vector,
    r: Vector,
}

impl From<Shape> for ShapeRecord {
    fn from(shape: Shape) -> Self {
        let zero = Vector::default();
        let along_x = |x| Vector { x, ..zero };
        let (kind, p, q, r) = match shape {
            Shape::Ball { radius } => (Kind::Ball, along_x(radius), zero, zero),
            Shape::Cuboid { half_extents } => (Kind::Cuboid, half_extents, zero, zero),
            Shape::Capsule { a, b, radius } => (Kind::Capsule, a, b, along_x(radius)),
            Shape::Triangle { a, b, c } => (Kind::Triangle, a, b, c),
        };
        Self { kind, p, q, r }
    }
}

#[repr(C)]
struct AnswerRecord {
    outcome: u8,
    point1: Vector,
    point2: Vector,
    normal: Vector,
    counts: Counts,
}

impl From<Answer> for AnswerRecord {
    fn from(answer: Answer) -> Self {
        let Answer { outcome, point1, point2, normal, counts } = answer;
        Self { outcome: outcome as u8, point1, point2, normal, counts }
    }
}

impl From<AnswerRecord> for Answer {
    fn from(record: AnswerRecord) -> Self {
        let AnswerRecord { outcome, point1, point2, normal, counts } = record;
        let outcome = Outcome::of_letter(outcome).expect("by the contract of the library an answer has a letter");
        Self { outcome, point1, point2, normal, counts }
    }
}

#[repr(C)]
struct VotedRecord {
    number: u32,
    odd: usize,
    answer: AnswerRecord,
}

#[repr(C)]
struct CastRecord {
    number: u32,
    time: f32,
    dir: Vector,
}

// The layout that include/separation.h asserts.
const _: () = assert!(size_of::<Pose>() == 28 && size_of::<ShapeRecord>() == 40 && size_of::<Ray>() == 24 && size_of::<CastRecord>() == 20);
const _: () = assert!(size_of::<AnswerRecord>() == 80 && size_of::<VotedRecord>() == 96 && size_of::<Edge>() == 16 && size_of::<GridVector>() == 12);

unsafe extern "C" {
    fn separation_run(
        pos12: Pose,
        g1: ShapeRecord,
        g2: ShapeRecord,
        dir: Vector,
        max_dist: f32,
        exact: bool,
        vertices: *mut f32,
        vertices_length: usize,
        ids: *mut usize,
        ids_length: usize,
        floats: *mut f32,
        floats_length: usize,
        deleted: *mut u8,
        deleted_length: usize,
        edges: *mut Edge,
        edges_length: usize,
        heap_ids: *mut usize,
        heap_ids_length: usize,
        heap_keys: *mut f32,
        heap_keys_length: usize,
        pending: *mut usize,
        pending_length: usize,
    ) -> AnswerRecord;
    safe fn separation_number(outcome: u8) -> u32;
    safe fn separation_vote(a: AnswerRecord, b: AnswerRecord, c: AnswerRecord) -> VotedRecord;
    safe fn separation_cast(pos12: Pose, g1: ShapeRecord, g2: ShapeRecord, ray: Ray, max_time: f32) -> CastRecord;
    fn separation_certify(
        first: *const i32,
        first_length: usize,
        second: *const i32,
        second_length: usize,
        direction: GridVector,
    ) -> u32;
    safe fn separation_propose(dir: Vector) -> GridVector;
}

// ---- the calls

/// How far `g2`, in the pose `pos12` in the frame of `g1`, is from `g1`, or how deep they meet.
pub fn run(pos12: Pose, g1: Shape, g2: Shape, dir: Vector, max_dist: f32, exact: bool, s: Stores) -> Answer {
    // SAFETY: the slices are lent for the call, each with its own length, and are kept by nobody.
    let record = unsafe {
        separation_run(
            pos12,
            g1.into(),
            g2.into(),
            dir,
            max_dist,
            exact,
            s.vertices.as_mut_ptr(),
            s.vertices.len(),
            s.ids.as_mut_ptr(),
            s.ids.len(),
            s.floats.as_mut_ptr(),
            s.floats.len(),
            s.deleted.as_mut_ptr(),
            s.deleted.len(),
            s.edges.as_mut_ptr(),
            s.edges.len(),
            s.heap_ids.as_mut_ptr(),
            s.heap_ids.len(),
            s.heap_keys.as_mut_ptr(),
            s.heap_keys.len(),
            s.pending.as_mut_ptr(),
            s.pending.len(),
        )
    };
    record.into()
}

/// Two out of three. Answers agree when outcome and counts are the same and the bits of each float, all NaNs counting as
/// one: a NaN agrees with a NaN, and -0 not with +0.
pub fn vote(a: Answer, b: Answer, c: Answer) -> Verdict {
    let VotedRecord { number, odd, answer } = separation_vote(a.into(), b.into(), c.into());
    match number {
        0 => Verdict::Agreed { answer: answer.into(), odd: (odd != 0).then_some(odd) },
        _ => Verdict::NoTwoAgree,
    }
}

/// When `g2`, which stands in the pose `pos12` in the frame of `g1`, meets `g1`: it is moved by the ray's origin and then
/// along its direction, no longer than `max_time`.
pub fn cast(pos12: Pose, g1: Shape, g2: Shape, ray: Ray, max_time: f32) -> Cast {
    let CastRecord { number, time, dir } = separation_cast(pos12, g1.into(), g2.into(), ray, max_time);
    match number {
        0 => Cast::Impact { time, dir },
        6 => Cast::Miss,
        _ => Cast::Refused,
    }
}

/// Whether every corner of the first hull has a strictly smaller product with the direction than every corner of the second:
/// then no point is in both. A hull is its corners one after the other, three numbers each.
pub fn certify(first: &[i32], second: &[i32], direction: GridVector) -> Certificate {
    // SAFETY: the slices are lent for the call, each with its own length; they are only read, and kept by nobody.
    let number = unsafe { separation_certify(first.as_ptr(), first.len(), second.as_ptr(), second.len(), direction) };
    match number {
        0 => Certificate::Accepted,
        9 => Certificate::BadLength,
        10 => Certificate::OutOfRange,
        _ => Certificate::NotSeparated,
    }
}

/// A direction in floats, such as the normal of an answer, as one to certify. Any floats are taken; a bad proposal is merely declined.
pub fn propose(dir: Vector) -> GridVector {
    separation_propose(dir)
}

/// Whether this thread's floating-point environment is the one that every channel must have: rounding to nearest, nothing flushed to zero or read
/// as zero, all exceptions masked. Ask it in each thread before its first call.
#[cfg(target_arch = "x86_64")]
pub fn environment() -> bool {
    let mut mxcsr: u32 = 0;
    // SAFETY: the instruction writes the four bytes that it is given, and nothing else.
    unsafe { std::arch::asm!("stmxcsr [{}]", in(reg) &mut mxcsr, options(nostack, preserves_flags)) };
    mxcsr & 0xFFC0 == 0x1F80
}
