//! `stores`: what the five stores hold after each record that reached the polytope.
//!
//! A record's block is its line as `run` prints it, then a line per entry:
//! `v` and nine floats; `f`, corners, neighbours, normal, weights, deleted (0 or 1);
//! `e` face and corner; `h` face and key, in the heap's internal order; `q` face and corner of a
//! pending question; at last `used` with the places ever used of edges, heap and pending questions.

use crate::casefile::Reader;
use crate::channel::Channel;
use crate::lines;
use parry3d::query::epa::epa3_plain::EPA;
use parry3d::query::epa::{Contents, FaceRecord, Readable, Rooms};
use std::io::{self, Read, Write};

fn push_face(text: &mut Vec<u8>, face: &FaceRecord) -> io::Result<()> {
    text.push(b'f');
    for number in face.pts.iter().chain(&face.adj) {
        write!(text, " {number}")?;
    }
    lines::push_vector(text, &face.normal);
    for &weight in &face.bcoords {
        lines::push_hex(text, weight);
    }
    writeln!(text, " {}", u8::from(face.deleted))
}

/// The entries of the four stores that either walk fills.
pub fn push_entries(text: &mut Vec<u8>, contents: &Contents) -> io::Result<()> {
    for vertex in &contents.vertices {
        text.push(b'v');
        for vector in [&vertex.point, &vertex.orig1, &vertex.orig2] {
            lines::push_vector(text, vector);
        }
        text.push(b'\n');
    }
    for face in &contents.faces {
        push_face(text, face)?;
    }
    for (face, corner) in &contents.silhouette {
        writeln!(text, "e {face} {corner}")?;
    }
    for (face, key) in &contents.heap {
        write!(text, "h {face}")?;
        lines::push_hex(text, *key);
        text.push(b'\n');
    }
    Ok(())
}

fn push_contents(text: &mut Vec<u8>, contents: &Contents) -> io::Result<()> {
    push_entries(text, contents)?;
    for (face, corner) in &contents.pending {
        writeln!(text, "q {face} {corner}")?;
    }
    writeln!(
        text,
        "used {} {} {}",
        contents.most_silhouette, contents.most_heap, contents.most_pending
    )
}

pub fn stores(input: impl Read, output: &mut impl Write, rooms: Rooms) -> io::Result<()> {
    let mut reader = Reader::new(input);
    let mut channel = Channel::<EPA>::new(rooms);
    let mut text = Vec::new();
    let mut number = 0;
    while let Some(record) = reader.well_formed()? {
        number += 1;
        let answer = channel.answer(&record);
        if let Some(polytope) = channel.polytope() {
            lines::push_line(&mut text, number, &answer);
            push_contents(&mut text, &polytope.contents())?;
            output.write_all(&text)?;
            text.clear();
        }
    }
    output.flush()
}
