//! Functions of the Rust side, where the crates have none of that exact form.

use crate::answers::Answer;
use glamx::{Pose3, Vec3};
use parry3d::utils::WSign;

/// `f32::max`, which leaves open what two unlike zeros give; here it is +0.
pub fn max(x: f32, y: f32) -> f32 {
    if x == 0.0 && y == 0.0 {
        x + y
    } else {
        x.max(y)
    }
}

pub fn copy_sign(magnitude: f32, sign: f32) -> f32 {
    sign.copy_sign_to(magnitude)
}

/// 1 and the vector, or 0.
pub fn try_normalize(a: Vec3) -> Answer {
    let tried = a.try_normalize();
    let vector = tried.unwrap_or(Vec3::ZERO);
    Answer::of_vectors(
        usize::from(tried.is_some()),
        [vector, Vec3::ZERO, Vec3::ZERO],
    )
}

pub fn normalize_and_length(a: Vec3) -> Answer {
    let (vector, length) = a.normalize_and_length();
    Answer::measured(vector, length)
}

/// The port has no panic here: an index above 2 means z.
fn place(index: usize) -> usize {
    index.min(2)
}

pub fn component(a: Vec3, index: usize) -> f32 {
    a[place(index)]
}

pub fn with_component(mut a: Vec3, index: usize, value: f32) -> Vec3 {
    a[place(index)] = value;
    a
}

pub fn inverse_transform_vector(p: Pose3, a: Vec3) -> Vec3 {
    p.rotation.inverse() * a
}
