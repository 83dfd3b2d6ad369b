//! What a function of the program answers: four sizes and ten floats, zeros where it has none.

use crate::values::Vertex;
use crate::words::{Put, Words};
use glamx::{Rot3, Vec3};

#[derive(Copy, Clone, Debug, PartialEq)]
pub struct Answer {
    pub number: usize,
    pub kind: usize,
    pub count: usize,
    pub place: usize,
    pub x: f32,
    pub vectors: [Vec3; 3],
}

impl Default for Answer {
    fn default() -> Self {
        Self {
            number: 0,
            kind: 0,
            count: 0,
            place: 0,
            x: 0.0,
            vectors: [Vec3::ZERO; 3],
        }
    }
}

impl Answer {
    pub fn said(number: usize) -> Self {
        Self::of_vectors(number, [Vec3::ZERO; 3])
    }

    pub fn of_vectors(number: usize, vectors: [Vec3; 3]) -> Self {
        Self {
            number,
            vectors,
            ..Self::default()
        }
    }

    /// A vector and a number.
    pub fn measured(vector: Vec3, x: f32) -> Self {
        Self {
            x,
            ..Self::from(vector)
        }
    }
}

impl Put for Answer {
    fn put(&self, words: &mut Words) {
        [self.number, self.kind, self.count, self.place].put(words);
        (self.x, self.vectors).put(words);
    }
}

impl From<bool> for Answer {
    fn from(is: bool) -> Self {
        Self::said(usize::from(is))
    }
}

impl From<usize> for Answer {
    fn from(count: usize) -> Self {
        Self {
            count,
            ..Self::default()
        }
    }
}

impl From<f32> for Answer {
    fn from(x: f32) -> Self {
        Self::measured(Vec3::ZERO, x)
    }
}

impl From<Vec3> for Answer {
    fn from(vector: Vec3) -> Self {
        Self::of_vectors(0, [vector, Vec3::ZERO, Vec3::ZERO])
    }
}

impl From<Rot3> for Answer {
    fn from(r: Rot3) -> Self {
        Self::measured(Vec3::new(r.x, r.y, r.z), r.w)
    }
}

impl From<Vertex> for Answer {
    fn from(v: Vertex) -> Self {
        Self::of_vectors(0, [v.point, v.orig1, v.orig2])
    }
}

/// A panic of the Rust must be the port's refusal.
impl<T: Into<Answer>> From<Option<T>> for Answer {
    fn from(answer: Option<T>) -> Self {
        answer.map_or(Self::said(2), T::into)
    }
}
