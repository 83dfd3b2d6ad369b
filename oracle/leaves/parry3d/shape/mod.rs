//! The shapes: ball, capsule and cuboid are published, the others are leaves.

pub use self::ball::Ball;
pub use self::capsule::Capsule;
pub use self::cuboid::Cuboid;
pub use self::feature_id::{FeatureId, PackedFeatureId};
pub use self::polygonal_feature::PolygonalFeature;
pub use self::segment::{Segment, SegmentPointLocation};
pub use self::support_map::SupportMap;
pub use self::tetrahedron::{Tetrahedron, TetrahedronPointLocation};
pub use self::triangle::{Triangle, TrianglePointLocation};

mod ball;
mod capsule;
mod cuboid;
mod feature_id;
mod polygonal_feature;
mod segment;
mod support_map;
mod tetrahedron;
mod triangle;
