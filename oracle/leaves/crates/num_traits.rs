//! Our own stand-in for the two number traits that gjk.rs and epa3.rs import.

pub trait Bounded {
    fn max_value() -> Self;
}

impl Bounded for f32 {
    /// The largest finite number.
    #[inline]
    fn max_value() -> f32 {
        f32::MAX
    }
}

pub trait Zero {
    fn is_zero(&self) -> bool;
}

impl Zero for f32 {
    #[inline]
    fn is_zero(&self) -> bool {
        *self == 0.0
    }
}
