//! Our own stand-in for `relative_eq!`. `check_approx` compares it with the packaged crate.

/// Equal, or near in absolute or in relative distance. An infinity is near nothing else.
#[inline]
pub fn relative_eq(x: f32, y: f32, epsilon: f32, max_relative: f32) -> bool {
    if x == y {
        return true;
    }
    if x.is_infinite() || y.is_infinite() {
        return false;
    }
    let distance = (x - y).abs();
    if distance <= epsilon {
        return true;
    }
    let (x, y) = (x.abs(), y.abs());
    let largest = if y > x { y } else { x };
    distance <= largest * max_relative
}

/// Both tolerances are 2^-23 unless given.
#[macro_export]
macro_rules! relative_eq {
    ($x:expr, $y:expr) => {
        $crate::relative_eq($x, $y, f32::EPSILON, f32::EPSILON)
    };
    ($x:expr, $y:expr, epsilon = $epsilon:expr) => {
        $crate::relative_eq($x, $y, $epsilon, f32::EPSILON)
    };
}
