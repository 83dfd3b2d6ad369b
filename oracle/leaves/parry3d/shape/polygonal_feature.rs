//! What `Cuboid::support_face` fills in; no case reaches it.

use crate::math::Vector;
use crate::shape::PackedFeatureId;

pub struct PolygonalFeature {
    pub vertices: [Vector; 4],
    pub vids: [PackedFeatureId; 4],
    pub eids: [PackedFeatureId; 4],
    pub fid: PackedFeatureId,
    pub num_vertices: usize,
}
