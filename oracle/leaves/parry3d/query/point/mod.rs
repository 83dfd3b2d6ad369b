//! Point projections: the tetrahedron's is published, the others are leaves.

pub use self::point_query::{PointProjection, PointQuery, PointQueryWithLocation};

mod point_query;
mod point_segment;
mod point_tetrahedron;
mod point_triangle;
