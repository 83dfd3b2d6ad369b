//! Every operation on numbers and vectors, as the Rust has it.

use crate::answers::Answer;
use crate::functions::*;
use crate::rust_leaves;
use glamx::{Pose3, Vec3};
use num_traits::Bounded;
use parry3d::math::DEFAULT_EPSILON;
use parry3d::query::gjk;

/// The numbers of one call; an operation takes those it needs.
#[derive(Copy, Clone, Debug)]
pub struct Inputs {
    pub x: f32,
    pub y: f32,
    pub a: Vec3,
    pub b: Vec3,
    pub pose: Pose3,
    pub index: usize,
}

pub struct Operation {
    pub name: &'static str,
    pub function: u32,
    pub rust: fn(&Inputs) -> Answer,
}

/// `name, number: Rust expression` over the inputs called `i`.
macro_rules! operations {
    ($($name:literal, $function:ident: |$i:ident| $rust:expr;)*) => {
        &[$(Operation {
            name: $name,
            function: $function,
            rust: |$i| Answer::from($rust),
        }),*]
    };
}

pub const CONSTANTS: &[Operation] = operations! {
    "epsilon", EPSILON: |_i| DEFAULT_EPSILON;
    "eps_tol", EPS_TOL: |_i| gjk::eps_tol();
    "polytope_tol", POLYTOPE_TOL: |_i| DEFAULT_EPSILON * 100.0;
    "largest", LARGEST: |_i| f32::max_value();
};

pub const OPERATIONS: &[Operation] = operations! {
    "sqrt", SQRT: |i| i.x.sqrt();
    "abs", ABS: |i| i.x.abs();
    "max", MAX: |i| rust_leaves::max(i.x, i.y);
    "is_finite", IS_FINITE: |i| i.x.is_finite();
    "copy_sign", COPY_SIGN: |i| rust_leaves::copy_sign(i.x, i.y);
    "neg", NEG: |i| -i.a;
    "add", ADD: |i| i.a + i.b;
    "sub", SUB: |i| i.a - i.b;
    "scale", SCALE: |i| i.a * i.x;
    "div", DIV: |i| i.a / i.x;
    "dot", DOT: |i| i.a.dot(i.b);
    "cross", CROSS: |i| i.a.cross(i.b);
    "length", LENGTH: |i| i.a.length();
    "length_squared", LENGTH_SQUARED: |i| i.a.length_squared();
    "length_recip", LENGTH_RECIP: |i| i.a.length_recip();
    "normalize", NORMALIZE: |i| i.a.normalize();
    "try_normalize", TRY_NORMALIZE: |i| rust_leaves::try_normalize(i.a);
    "normalize_or", NORMALIZE_OR: |i| i.a.normalize_or(i.b);
    "normalize_or_zero", NORMALIZE_OR_ZERO: |i| i.a.normalize_or_zero();
    "normalize_and_length", NORMALIZE_AND_LENGTH: |i| rust_leaves::normalize_and_length(i.a);
    "component", COMPONENT: |i| rust_leaves::component(i.a, i.index);
    "with_component", WITH_COMPONENT: |i| rust_leaves::with_component(i.a, i.index, i.x);
    "equals", EQUALS: |i| i.a == i.b;
    "inverse", INVERSE: |i| i.pose.rotation.inverse();
    "rotate", ROTATE: |i| i.pose.rotation * i.a;
    "transform_point", TRANSFORM_POINT: |i| i.pose * i.a;
    "inverse_transform_vector", INVERSE_TRANSFORM_VECTOR: |i| rust_leaves::inverse_transform_vector(i.pose, i.a);
};
