//! What a projection answers, and the two traits that ask for it.

use crate::math::{Real, Vector};
use crate::shape::FeatureId;
use crate::utils::relative_eq_vector;

#[derive(Copy, Clone, Debug)]
pub struct PointProjection {
    pub is_inside: bool,
    pub point: Vector,
}

impl PointProjection {
    #[inline]
    pub fn new(is_inside: bool, point: Vector) -> Self {
        Self { is_inside, point }
    }

    /// A projection on the boundary: inside exactly when it is about the point itself.
    #[inline]
    pub(super) fn on_boundary(point: Vector, pt: Vector) -> Self {
        Self::new(relative_eq_vector(point, pt), point)
    }

    #[inline]
    pub fn is_inside_eps(&self, original_point: Vector, min_dist: Real) -> bool {
        self.is_inside || (original_point - self.point).length_squared() < min_dist * min_dist
    }
}

pub trait PointQuery {
    fn project_local_point(&self, pt: Vector, solid: bool) -> PointProjection;

    /// Only point_tetrahedron.rs has it, and no case reaches it.
    fn project_local_point_and_get_feature(&self, _: Vector) -> (PointProjection, FeatureId) {
        unimplemented!("left out of the build")
    }
}

pub trait PointQueryWithLocation {
    type Location;

    fn project_local_point_and_get_location(
        &self,
        pt: Vector,
        solid: bool,
    ) -> (PointProjection, Self::Location);
}
