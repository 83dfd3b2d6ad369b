//! Projection on a segment.

use crate::math::Vector;
use crate::query::{PointProjection, PointQuery, PointQueryWithLocation};
use crate::shape::{Segment, SegmentPointLocation};

impl PointQuery for Segment {
    #[inline]
    fn project_local_point(&self, pt: Vector, solid: bool) -> PointProjection {
        self.project_local_point_and_get_location(pt, solid).0
    }
}

impl PointQueryWithLocation for Segment {
    type Location = SegmentPointLocation;

    /// A segment has no inside, so it is the same solid or not.
    #[inline]
    fn project_local_point_and_get_location(
        &self,
        pt: Vector,
        _: bool,
    ) -> (PointProjection, Self::Location) {
        let ab = self.b - self.a;
        let ap = pt - self.a;
        let ab_ap = ab.dot(ap);
        let ab_ab = ab.dot(ab);

        let (point, location) = if ab_ap <= 0.0 {
            (self.a, SegmentPointLocation::OnVertex(0))
        } else if ab_ap >= ab_ab {
            (self.b, SegmentPointLocation::OnVertex(1))
        } else {
            // Only a NaN product leads here with equal ends.
            assert!(ab_ab != 0.0);
            let u = ab_ap / ab_ab;
            let weights = [1.0 - u, u];
            (self.a + ab * u, SegmentPointLocation::OnEdge(weights))
        };

        (PointProjection::on_boundary(point, pt), location)
    }
}
