//! Calls the private cast. A child module of a copy of gjk.rs, so that it sees it; it changes nothing.

use crate::math::{Pose, Real, Vector};
use crate::query::gjk::VoronoiSimplex;
use crate::query::Ray;
use crate::shape::SupportMap;

pub fn minkowski_ray_cast(
    pos12: &Pose,
    g1: &dyn SupportMap,
    g2: &dyn SupportMap,
    ray: &Ray,
    max_time_of_impact: Real,
    simplex: &mut VoronoiSimplex,
) -> Option<(Real, Vector)> {
    super::minkowski_ray_cast(pos12, g1, g2, ray, max_time_of_impact, simplex)
}
