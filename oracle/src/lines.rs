//! The lines that the program prints.

pub use crate::answer::{bits, letter, push_hex, push_vector, vectors};

use crate::answer::push_head;
use crate::channel::Answer;
use parry3d::query::epa::Counts;
use std::io::Write;

pub fn counts(answer: &Answer) -> Option<Counts> {
    match answer {
        Answer::Penetration(_, counts) | Answer::NoneFound(counts) | Answer::NoRoom(counts) => {
            Some(*counts)
        }
        _ => None,
    }
}

/// Appends a record's line, the newline included.
pub fn push_line(out: &mut Vec<u8>, number: u32, answer: &Answer) {
    push_head(out, number, answer);
    if let Some(counts) = counts(answer) {
        write!(
            out,
            " {} {} {} {} {}",
            counts.expansions,
            counts.faces_made,
            counts.faces_live,
            counts.most_edges,
            counts.missed
        )
        .expect("memory takes every line");
    }
    out.push(b'\n');
}
