//! A triangle by its corners.

use crate::math::{Real, Vector, DEFAULT_EPSILON};
use crate::shape::SupportMap;

#[derive(Copy, Clone, Debug)]
pub struct Triangle {
    pub a: Vector,
    pub b: Vector,
    pub c: Vector,
}

impl Triangle {
    #[inline]
    pub fn new(a: Vector, b: Vector, c: Vector) -> Self {
        Self { a, b, c }
    }

    /// About no area: the corners are on a line.
    #[inline]
    pub fn is_affinely_dependent(&self) -> bool {
        const TOLERANCE: Real = DEFAULT_EPSILON * 100.0;
        let doubled_area = (self.b - self.a).cross(self.c - self.a);
        relative_eq!(
            doubled_area.length_squared(),
            0.0,
            epsilon = TOLERANCE * TOLERANCE
        )
    }
}

impl SupportMap for Triangle {
    #[inline]
    fn local_support_point(&self, dir: Vector) -> Vector {
        let d1 = self.a.dot(dir);
        let d2 = self.b.dot(dir);
        let d3 = self.c.dot(dir);

        if d1 > d2 {
            if d1 > d3 {
                self.a
            } else {
                self.c
            }
        } else if d2 > d3 {
            self.b
        } else {
            self.c
        }
    }
}

#[derive(Copy, Clone, Debug)]
pub enum TrianglePointLocation {
    OnVertex(u32),
    OnEdge(u32, [Real; 2]),
    OnFace(u32, [Real; 3]),
    OnSolid,
}

impl TrianglePointLocation {
    #[inline]
    pub fn barycentric_coordinates(&self) -> Option<[Real; 3]> {
        match *self {
            Self::OnVertex(i) => {
                let mut weights = [0.0; 3];
                weights[i as usize] = 1.0;
                Some(weights)
            }
            Self::OnEdge(0, [u, v]) => Some([u, v, 0.0]),
            Self::OnEdge(1, [u, v]) => Some([0.0, u, v]),
            Self::OnEdge(2, [u, v]) => Some([u, 0.0, v]),
            Self::OnEdge(..) => unreachable!(),
            Self::OnFace(_, weights) => Some(weights),
            Self::OnSolid => None,
        }
    }
}
