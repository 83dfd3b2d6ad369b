//! The values that calls take and give, in the order of their words.

use crate::words::{Put, Words};
use glamx::Vec3;
use parry3d::query::gjk::{CsoPoint, VoronoiSimplex};
use parry3d::shape::{Segment, Tetrahedron, Triangle};

#[derive(Copy, Clone, Debug)]
pub struct RawShape {
    pub kind: u32,
    pub p: Vec3,
    pub q: Vec3,
    pub r: Vec3,
}

#[derive(Copy, Clone, Debug)]
pub struct Vertex {
    pub point: Vec3,
    pub orig1: Vec3,
    pub orig2: Vec3,
}

#[derive(Copy, Clone, Debug)]
pub struct Simplex {
    pub prev_vertices: [usize; 4],
    pub prev_proj: [f32; 3],
    pub prev_dim: usize,
    pub vertices: [Vertex; 4],
    pub proj: [f32; 3],
    pub dim: usize,
}

/// Two, three or four corners.
#[derive(Copy, Clone, Debug)]
pub struct Corners<const N: usize>(pub [Vec3; N]);

impl Put for RawShape {
    fn put(&self, words: &mut Words) {
        (self.kind, [self.p, self.q, self.r]).put(words);
    }
}

impl Put for Vertex {
    fn put(&self, words: &mut Words) {
        [self.point, self.orig1, self.orig2].put(words);
    }
}

impl Put for Simplex {
    fn put(&self, words: &mut Words) {
        (self.prev_vertices, self.prev_proj, self.prev_dim).put(words);
        (self.vertices, self.proj, self.dim).put(words);
    }
}

impl From<CsoPoint> for Vertex {
    fn from(v: CsoPoint) -> Self {
        Self {
            point: v.point,
            orig1: v.orig1,
            orig2: v.orig2,
        }
    }
}

impl From<Vertex> for CsoPoint {
    fn from(v: Vertex) -> Self {
        CsoPoint::new_with_point(v.point, v.orig1, v.orig2)
    }
}

impl From<&VoronoiSimplex> for Simplex {
    fn from(s: &VoronoiSimplex) -> Self {
        let (prev_vertices, prev_proj, prev_dim, vertices, proj, dim) = s.fields();
        Self {
            prev_vertices,
            prev_proj,
            prev_dim,
            vertices: vertices.map(Vertex::from),
            proj,
            dim,
        }
    }
}

impl From<Simplex> for VoronoiSimplex {
    fn from(s: Simplex) -> Self {
        let vertices = s.vertices.map(CsoPoint::from);
        VoronoiSimplex::from_fields((
            s.prev_vertices,
            s.prev_proj,
            s.prev_dim,
            vertices,
            s.proj,
            s.dim,
        ))
    }
}

impl From<Corners<2>> for Segment {
    fn from(Corners([a, b]): Corners<2>) -> Self {
        Segment::new(a, b)
    }
}

impl From<Corners<3>> for Triangle {
    fn from(Corners([a, b, c]): Corners<3>) -> Self {
        Triangle::new(a, b, c)
    }
}

impl From<Corners<4>> for Tetrahedron {
    fn from(Corners([a, b, c, d]): Corners<4>) -> Self {
        Tetrahedron::new(a, b, c, d)
    }
}
