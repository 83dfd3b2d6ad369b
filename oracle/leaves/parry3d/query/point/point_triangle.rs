//! Projection on a solid triangle: the regions in order, the first that holds answers.

use crate::math::Vector;
use crate::query::{PointProjection, PointQuery, PointQueryWithLocation};
use crate::shape::{Triangle, TrianglePointLocation};

impl PointQuery for Triangle {
    #[inline]
    fn project_local_point(&self, pt: Vector, solid: bool) -> PointProjection {
        self.project_local_point_and_get_location(pt, solid).0
    }
}

impl PointQueryWithLocation for Triangle {
    type Location = TrianglePointLocation;

    /// Every caller in the published text asks for the solid form.
    #[inline]
    fn project_local_point_and_get_location(
        &self,
        pt: Vector,
        _: bool,
    ) -> (PointProjection, Self::Location) {
        let (a, b, c) = (self.a, self.b, self.c);
        let on = |point: Vector, location| (PointProjection::on_boundary(point, pt), location);

        let ab = b - a;
        let ac = c - a;
        let ap = pt - a;
        let ab_ap = ab.dot(ap);
        let ac_ap = ac.dot(ap);
        if ab_ap <= 0.0 && ac_ap <= 0.0 {
            return on(a, TrianglePointLocation::OnVertex(0));
        }

        let bp = pt - b;
        let ab_bp = ab.dot(bp);
        let ac_bp = ac.dot(bp);
        if ab_bp >= 0.0 && ac_bp <= ab_bp {
            return on(b, TrianglePointLocation::OnVertex(1));
        }

        let cp = pt - c;
        let ab_cp = ab.dot(cp);
        let ac_cp = ac.dot(cp);
        if ac_cp >= 0.0 && ab_cp <= ac_cp {
            return on(c, TrianglePointLocation::OnVertex(2));
        }

        let bc = c - b;
        let n = ab.cross(ac);
        let vc = n.dot(ab.cross(ap));
        if vc < 0.0 && ab_ap >= 0.0 && ab_bp <= 0.0 {
            let v = ab_ap / ab.dot(ab);
            return on(a + ab * v, TrianglePointLocation::OnEdge(0, [1.0 - v, v]));
        }

        let vb = -n.dot(ac.cross(cp));
        if vb < 0.0 && ac_ap >= 0.0 && ac_cp <= 0.0 {
            let w = ac_ap / ac.dot(ac);
            return on(a + ac * w, TrianglePointLocation::OnEdge(2, [1.0 - w, w]));
        }

        let va = n.dot(bc.cross(bp));
        if va < 0.0 && ac_bp - ab_bp >= 0.0 && ab_cp - ac_cp >= 0.0 {
            let w = bc.dot(bp) / bc.dot(bc);
            return on(b + bc * w, TrianglePointLocation::OnEdge(1, [1.0 - w, w]));
        }

        let face = if n.dot(ap) >= 0.0 { 0 } else { 1 };
        let sum = (va + vb) + vc;
        if sum != 0.0 {
            let recip = 1.0 / sum;
            let v = vb * recip;
            let w = vc * recip;
            let weights = [(1.0 - v) - w, v, w];
            let point = (a + ab * v) + ac * w;
            return on(point, TrianglePointLocation::OnFace(face, weights));
        }

        (
            PointProjection::new(true, pt),
            TrianglePointLocation::OnSolid,
        )
    }
}
