//! A segment by its ends.

use crate::math::{Real, Vector};

#[derive(Copy, Clone, Debug)]
pub struct Segment {
    pub a: Vector,
    pub b: Vector,
}

impl Segment {
    #[inline]
    pub fn new(a: Vector, b: Vector) -> Self {
        Self { a, b }
    }
}

#[derive(Copy, Clone, Debug)]
pub enum SegmentPointLocation {
    OnVertex(u32),
    OnEdge([Real; 2]),
}
