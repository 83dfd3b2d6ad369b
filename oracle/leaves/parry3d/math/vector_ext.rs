//! Access to a vector's components by number, as cuboid.rs asks for it.
//! None of it is on the way of a support point.

use super::{Real, Vector};

pub trait VectorExt {
    fn vget(&self, i: usize) -> Real;
    fn vset(&mut self, i: usize, value: Real);
    fn min_position(&self) -> usize;
    fn max_position(&self) -> usize;
}

impl VectorExt for Vector {
    fn vget(&self, i: usize) -> Real {
        self[i]
    }

    fn vset(&mut self, i: usize, value: Real) {
        self[i] = value;
    }

    fn min_position(&self) -> usize {
        unimplemented!("left out of the build")
    }

    fn max_position(&self) -> usize {
        unimplemented!("left out of the build")
    }
}
