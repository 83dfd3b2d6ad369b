//! Builds and reads a simplex. A child module of a copy of voronoi_simplex3.rs, so that it sees the
//! private fields; it changes nothing of an operation.

use super::VoronoiSimplex;
use crate::math::Real;
use crate::query::gjk::CsoPoint;

/// The fields in the order of the struct.
pub type Fields = (
    [usize; 4],
    [Real; 3],
    usize,
    [CsoPoint; 4],
    [Real; 3],
    usize,
);

impl VoronoiSimplex {
    pub fn from_fields(fields: Fields) -> Self {
        let (prev_vertices, prev_proj, prev_dim, vertices, proj, dim) = fields;
        Self {
            prev_vertices,
            prev_proj,
            prev_dim,
            vertices,
            proj,
            dim,
        }
    }

    pub fn fields(&self) -> Fields {
        (
            self.prev_vertices,
            self.prev_proj,
            self.prev_dim,
            self.vertices,
            self.proj,
            self.dim,
        )
    }
}
