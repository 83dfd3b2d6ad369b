//! Reads a run after it ended. A child module of each copy of epa3.rs, so that it sees the
//! private stores; it changes nothing of a run but the stores' lent lengths.

use super::{Face, FaceId, EPA};
use crate::lent::{BinaryHeap, Store};
use crate::math::{Pose, Vector};
use crate::query::epa::{Contents, Counts, FaceRecord, Polytope, Readable, Rooms, WayOut};
use crate::query::gjk::VoronoiSimplex;
use crate::shape::SupportMap;

impl Polytope for EPA {
    fn lend(&mut self, rooms: Rooms) {
        self.vertices.lend(Store::Vertices, rooms.vertices);
        self.silhouette.lend(Store::Edges, rooms.edges);
        self.faces.lend(Store::Faces, rooms.faces);
        self.heap.lend(Store::Heap, rooms.heap);
        self.pending.lend(Store::Pending, rooms.pending);
    }

    fn run(
        &mut self,
        pos12: &Pose,
        g1: &dyn SupportMap,
        g2: &dyn SupportMap,
        simplex: &VoronoiSimplex,
    ) -> Option<(Vector, Vector, Vector)> {
        self.closest_points(pos12, g1, g2, simplex)
    }

    fn counts(&self) -> Counts {
        Counts {
            expansions: self.expansions,
            faces_made: self.faces.len(),
            faces_live: self.faces.iter().filter(|face| !face.deleted).count(),
            most_edges: self.silhouette.most(),
            missed: self.missed,
        }
    }
}

impl Readable for EPA {
    fn way_out(&self) -> WayOut {
        self.way_out
    }

    fn most_heap(&self) -> usize {
        self.heap.most()
    }

    fn most_pending(&self) -> usize {
        self.pending.most()
    }

    fn contents(&self) -> Contents {
        Contents {
            vertices: self.vertices.to_vec(),
            faces: self.faces.iter().map(face_record).collect(),
            silhouette: self
                .silhouette
                .iter()
                .map(|edge| (edge.face_id, edge.opp_pt_id))
                .collect(),
            most_silhouette: self.silhouette.most(),
            heap: self
                .heap
                .as_slice()
                .iter()
                .map(|entry| (entry.id, entry.neg_dist))
                .collect(),
            most_heap: self.most_heap(),
            pending: self.pending.to_vec(),
            most_pending: self.most_pending(),
        }
    }

    fn pop_order_of_equals(faces: usize) -> Vec<usize> {
        let mut heap = BinaryHeap::default();
        for id in 0..faces {
            heap.push(FaceId { id, neg_dist: 0.0 });
        }
        core::iter::from_fn(|| heap.pop())
            .map(|face| face.id)
            .collect()
    }
}

fn face_record(face: &Face) -> FaceRecord {
    FaceRecord {
        pts: face.pts,
        adj: face.adj,
        normal: face.normal,
        bcoords: face.bcoords,
        deleted: face.deleted,
    }
}
