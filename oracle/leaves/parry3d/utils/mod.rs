//! Small helpers: the face normal and the vector comparison are published.

pub use self::ccw_face_normal::ccw_face_normal;
pub use self::relative_eq::relative_eq_vector;
pub use self::wops::WSign;

mod ccw_face_normal;
mod relative_eq;
mod wops;

/// math/mod.rs names it as a type; nothing here makes one.
pub struct SdpMatrix3<N>(core::marker::PhantomData<N>);
