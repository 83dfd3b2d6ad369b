//! Our own stand-in for the number traits that the published text imports.

pub mod scalar {
    /// Gives `<Real as ComplexField>::sqrt`, the toolchain's own root.
    pub trait ComplexField {
        fn sqrt(self) -> Self;
    }

    impl ComplexField for f32 {
        #[inline]
        fn sqrt(self) -> f32 {
            f32::sqrt(self)
        }
    }

    /// Only re-exported.
    pub trait RealField {}
}
