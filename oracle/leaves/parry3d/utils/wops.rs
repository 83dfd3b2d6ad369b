//! Signs, bit by bit.

use crate::math::{Real, Vector};

const SIGN_BIT: u32 = 0x8000_0000;

/// `self` gives the sign, `to` the magnitude.
pub trait WSign {
    fn copy_sign_to(self, to: Self) -> Self;
}

impl WSign for Real {
    /// A NaN's sign counts as positive, since Rust does not fix it. With `nan_signs`, which
    /// oracle/crate asks for, it is read, as it is in the crate.
    #[inline]
    fn copy_sign_to(self, to: Self) -> Self {
        let sign = if self.is_nan() && !cfg!(feature = "nan_signs") {
            0
        } else {
            self.to_bits() & SIGN_BIT
        };
        Real::from_bits(sign | (to.to_bits() & !SIGN_BIT))
    }
}

impl WSign for Vector {
    #[inline]
    fn copy_sign_to(self, to: Self) -> Self {
        Vector::new(
            self.x.copy_sign_to(to.x),
            self.y.copy_sign_to(to.y),
            self.z.copy_sign_to(to.z),
        )
    }
}
