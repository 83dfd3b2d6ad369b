//! epa3.rs as published and its edited copies, one for each order of equal keys and one with the plain walk, behind traits.

use crate::math::{Pose, Real, Vector};
use crate::query::gjk::{CsoPoint, VoronoiSimplex};
use crate::shape::SupportMap;

/// Equal keys pop as the toolchain's heap has them, and the silhouette is walked as published.
pub mod epa3;
/// Equal keys pop in the order of arrival.
pub mod epa3_first;
/// Equal keys pop in the reverse order of arrival.
pub mod epa3_last;
/// As `epa3`, but the silhouette is walked by a loop over pending questions.
pub mod epa3_plain;
/// The published text, not edited: what the edited copies are compared with.
pub mod epa3_published;

/// Under the crate's own name, for oracle/crate.
pub use self::epa3_published::EPA;

/// How many entries each store is lent.
#[derive(Copy, Clone, Debug)]
pub struct Rooms {
    pub vertices: usize,
    pub edges: usize,
    pub faces: usize,
    pub heap: usize,
    /// Of the plain walk alone.
    pub pending: usize,
}

impl Rooms {
    pub const NO_LIMIT: Rooms = Rooms {
        vertices: usize::MAX,
        edges: usize::MAX,
        faces: usize::MAX,
        heap: usize::MAX,
        pending: usize::MAX,
    };

    /// What the programs lend.
    pub const PROGRAM: Rooms = Rooms {
        vertices: 105,
        edges: 206,
        faces: 1000,
        heap: 1000,
        pending: 206,
    };
}

/// The counts of a run, valid whatever way it ended.
#[derive(Copy, Clone, Debug, Default, PartialEq)]
pub struct Counts {
    pub expansions: usize,
    pub faces_made: usize,
    pub faces_live: usize,
    pub most_edges: usize,
    pub missed: usize,
}

/// The branch by which a run left. After a panic or a full store it says only how far the
/// run had come.
#[derive(Copy, Clone, Debug, Default, PartialEq)]
pub enum WayOut {
    #[default]
    Start,
    DegenerateStart,
    KeyRefusedAtStart,
    NoStartingFace,
    HeapEmpty,
    Converged,
    EmptySilhouette,
    NearerFace,
    KeyRefusedLater,
    NoNewFace,
    LastExpansion,
}

/// A face as the store holds it.
pub struct FaceRecord {
    pub pts: [usize; 3],
    pub adj: [usize; 3],
    pub normal: Vector,
    pub bcoords: [Real; 3],
    pub deleted: bool,
}

/// What the five stores hold after a run. `most_...` says how many places were ever used.
pub struct Contents {
    pub vertices: Vec<CsoPoint>,
    pub faces: Vec<FaceRecord>,
    /// Face and corner opposite to the edge.
    pub silhouette: Vec<(usize, usize)>,
    pub most_silhouette: usize,
    /// Face and key, in the heap's internal order.
    pub heap: Vec<(usize, Real)>,
    pub most_heap: usize,
    /// Face and corner of each question still held: none but after a refusal of the plain walk.
    pub pending: Vec<(usize, usize)>,
    pub most_pending: usize,
}

/// A polytope that can be run.
pub trait Polytope: Default {
    /// Bounds the stores, if the copy can.
    fn lend(&mut self, rooms: Rooms);

    /// `EPA::closest_points` of the published text.
    fn run(
        &mut self,
        pos12: &Pose,
        g1: &dyn SupportMap,
        g2: &dyn SupportMap,
        simplex: &VoronoiSimplex,
    ) -> Option<(Vector, Vector, Vector)>;

    /// The counts of the last run, zeros if the copy keeps none.
    fn counts(&self) -> Counts;
}

/// A polytope whose last run can be read.
pub trait Readable: Polytope {
    fn way_out(&self) -> WayOut;
    fn most_heap(&self) -> usize;
    fn most_pending(&self) -> usize;
    fn contents(&self) -> Contents;

    /// The order in which faces 0, 1, ... pop that were queued in this order with equal keys.
    fn pop_order_of_equals(faces: usize) -> Vec<usize>;
}

impl Polytope for epa3_published::EPA {
    fn lend(&mut self, _: Rooms) {}

    fn run(
        &mut self,
        pos12: &Pose,
        g1: &dyn SupportMap,
        g2: &dyn SupportMap,
        simplex: &VoronoiSimplex,
    ) -> Option<(Vector, Vector, Vector)> {
        self.closest_points(pos12, g1, g2, simplex)
    }

    fn counts(&self) -> Counts {
        Counts::default()
    }
}
