//! The shape that is one point, for `project_origin`.

use crate::math::{Pose, Vector};
use crate::shape::SupportMap;

pub struct ConstantOrigin;

impl SupportMap for ConstantOrigin {
    fn local_support_point(&self, _: Vector) -> Vector {
        Vector::ZERO
    }

    fn support_point(&self, pose: &Pose, _: Vector) -> Vector {
        pose.translation
    }
}
