//! `reasons`: a case file in, a line for each record that reached the polytope out, with the words of document 02's ticket 5 for
//! the branch by which the run left, as the edited copy notes it.

use crate::casefile::{Next, Reader};
use crate::channel::{Answer, Channel};
use parry3d::query::epa::epa3_plain::EPA;
use parry3d::query::epa::{Readable, Rooms, WayOut};
use std::io::{self, Read, Write};

/// After a panic or a full store the way out says only how far the run had come.
fn words(answer: &Answer, way_out: WayOut) -> &'static str {
    match answer {
        Answer::Panic => "panic site",
        Answer::NoRoom(_) => "no room",
        _ => way_words(way_out),
    }
}

/// `stuck` is not among them: its half of the test for convergence can't hold.
fn way_words(way_out: WayOut) -> &'static str {
    match way_out {
        WayOut::Converged => "converged",
        WayOut::NearerFace => "a new face nearer than the current one",
        WayOut::LastExpansion => "101 expansions",
        WayOut::HeapEmpty => "heap empty",
        WayOut::DegenerateStart => "degenerate start",
        WayOut::KeyRefusedAtStart => "key refused at the start",
        WayOut::NoStartingFace => "no starting face holding the projection",
        WayOut::EmptySilhouette => "empty silhouette",
        WayOut::NoNewFace => "all silhouette faces deleted",
        WayOut::KeyRefusedLater => "key refused later",
        WayOut::Start => unreachable!("a run that returns has noted its way out"),
    }
}

pub fn reasons(input: impl Read, output: &mut impl Write, rooms: Rooms) -> io::Result<()> {
    let mut output = io::BufWriter::new(output);
    let mut reader = Reader::new(input);
    let mut channel = Channel::<EPA>::new(rooms);
    for number in 1..=u32::MAX {
        match reader.next()? {
            Next::Record(record) => {
                let answer = channel.answer(&record);
                if let Some(polytope) = channel.polytope() {
                    writeln!(output, "{number} {}", words(&answer, polytope.way_out()))?;
                }
            }
            Next::End => break,
            Next::Bad(offset) => {
                writeln!(output, "bad {offset}")?;
                break;
            }
        }
    }
    output.flush()
}
