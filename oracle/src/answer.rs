//! What the crate's calls answer for a record, and how a line says it, up to its counts.
//! oracle/crate compiles this file too, so it names nothing that the crate has not got.

use parry3d::math::Vector;
use std::io::Write;

/// `Counts` is what is known of the polytope's run besides.
#[derive(Copy, Clone, Debug)]
pub enum Answer<Counts> {
    ClosestPoints([Vector; 3]),
    Proximity(Vector),
    NoIntersection(Vector),
    Penetration([Vector; 3], Counts),
    /// Refusal 1: the polytope gave `None`.
    NoneFound(Counts),
    /// Refusal 2: a panic, in GJK or in the polytope.
    Panic,
    /// Refusal 3: a lent store was full.
    NoRoom(Counts),
}

pub fn letter<Counts>(answer: &Answer<Counts>) -> char {
    match answer {
        Answer::ClosestPoints(_) => 'D',
        Answer::Proximity(_) => 'M',
        Answer::NoIntersection(_) => 'S',
        Answer::Penetration(..) => 'P',
        Answer::NoneFound(_) => 'N',
        Answer::Panic => 'X',
        Answer::NoRoom(_) => 'R',
    }
}

pub fn vectors<Counts>(answer: &Answer<Counts>) -> &[Vector] {
    match answer {
        Answer::ClosestPoints(vectors) | Answer::Penetration(vectors, _) => vectors,
        Answer::Proximity(vector) | Answer::NoIntersection(vector) => std::slice::from_ref(vector),
        Answer::NoneFound(_) | Answer::Panic | Answer::NoRoom(_) => &[],
    }
}

/// All NaNs are one value.
pub fn bits(float: f32) -> u32 {
    if float.is_nan() {
        0x7FC0_0000
    } else {
        float.to_bits()
    }
}

/// Appends ` ` and eight digits; by hand, as most of a line's time would go into `write!`.
pub fn push_hex(out: &mut Vec<u8>, float: f32) {
    const DIGITS: &[u8; 16] = b"0123456789ABCDEF";
    let bits = bits(float);
    out.push(b' ');
    for digit in (0..8).rev() {
        out.push(DIGITS[(bits >> (4 * digit)) as usize & 15]);
    }
}

pub fn push_vector(out: &mut Vec<u8>, vector: &Vector) {
    push_hex(out, vector.x);
    push_hex(out, vector.y);
    push_hex(out, vector.z);
}

/// Appends a record's line up to its counts: number, letter and floats.
pub fn push_head<Counts>(out: &mut Vec<u8>, number: u32, answer: &Answer<Counts>) {
    write!(out, "{number} {}", letter(answer)).expect("memory takes every line");
    for vector in vectors(answer) {
        push_vector(out, vector);
    }
}
