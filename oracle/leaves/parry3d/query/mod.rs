//! The queries that are compiled.

pub use self::point::{PointProjection, PointQuery, PointQueryWithLocation};
pub use self::ray::Ray;

pub mod epa;
pub mod gjk;
pub mod gjk_ways;
pub mod point;
mod ray;
pub mod ways;

/// Where gjk.rs looks for the ray test.
pub mod details {
    pub use super::ray::ray_toi_with_halfspace;
}
