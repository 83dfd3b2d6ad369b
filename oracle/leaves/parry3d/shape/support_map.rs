//! Farthest points in a direction.

use crate::math::{Pose, Vector};

pub trait SupportMap {
    fn local_support_point(&self, dir: Vector) -> Vector;

    #[inline]
    fn local_support_point_toward(&self, dir: Vector) -> Vector {
        self.local_support_point(dir)
    }

    /// The direction goes into the shape's frame, the point comes back out of it.
    #[inline]
    fn support_point(&self, pose: &Pose, dir: Vector) -> Vector {
        let local_dir = pose.rotation.inverse() * dir;
        pose * self.local_support_point(local_dir)
    }

    #[inline]
    fn support_point_toward(&self, pose: &Pose, dir: Vector) -> Vector {
        let local_dir = pose.rotation.inverse() * dir;
        pose * self.local_support_point_toward(local_dir)
    }
}
