//! `order`: the same run with equal keys popped in another order.
//!
//! The toolchain's heap fixes an order of equal keys that its documentation does not. These
//! figures show how much of the answers rests on it.

use crate::casefile::{Reader, Record};
use crate::channel::{Answer, Channel};
use crate::lines;
use parry3d::math::Vector;
use parry3d::query::epa::epa3::EPA;
use parry3d::query::epa::epa3_first::EPA as FirstEpa;
use parry3d::query::epa::epa3_last::EPA as LastEpa;
use parry3d::query::epa::{Polytope, Rooms};
use std::io::{self, Read, Write};

/// The same record by the oracle proper and by another copy of the polytope.
pub struct Pair<Other> {
    heap: Channel<EPA>,
    other: Channel<Other>,
}

impl<Other: Polytope> Pair<Other> {
    pub fn new(rooms: Rooms) -> Self {
        Self {
            heap: Channel::new(rooms),
            other: Channel::new(rooms),
        }
    }

    /// Both answers, if the record reaches the polytope.
    pub fn answers(&mut self, record: &Record) -> Option<[Answer; 2]> {
        let heap = self.heap.answer(record);
        self.heap.polytope()?;
        Some([heap, self.other.answer(record)])
    }

    /// Both answers, if one of them is a penetration.
    pub fn penetrations(&mut self, record: &Record) -> Option<[Answer; 2]> {
        let is_penetration = |answer: &Answer| matches!(answer, Answer::Penetration(..));
        self.answers(record)
            .filter(|pair| pair.iter().any(is_penetration))
    }
}

/// The answer's line without the record's number.
pub fn line(answer: &Answer) -> Vec<u8> {
    let mut line = Vec::new();
    lines::push_line(&mut line, 1, answer);
    line.split_off(2)
}

/// True if the letter or a printed float differs; counts alone do not make a difference here.
pub fn letter_or_floats_differ([one, other]: &[Answer; 2]) -> bool {
    let mut vectors = lines::vectors(one).iter().zip(lines::vectors(other));
    lines::letter(one) != lines::letter(other) || vectors.any(|(a, b)| vectors_differ(a, b))
}

fn vectors_differ(a: &Vector, b: &Vector) -> bool {
    lines::bits(a.x) != lines::bits(b.x)
        || lines::bits(a.y) != lines::bits(b.y)
        || lines::bits(a.z) != lines::bits(b.z)
}

/// The greatest difference of a component; NaN counts as none.
fn greatest_difference(a: &Vector, b: &Vector) -> f32 {
    let difference = (*a - *b).abs();
    difference.x.max(difference.y).max(difference.z).max(0.0)
}

#[derive(Default)]
struct Figures {
    penetrations: u64,
    lines: u64,
    letters: u64,
    letters_or_floats: u64,
    points: u64,
    normals: u64,
    largest_of_points: f32,
    largest_of_normals: f32,
}

impl Figures {
    fn note(&mut self, pair: &[Answer; 2]) {
        self.penetrations += 1;
        self.lines += u64::from(line(&pair[0]) != line(&pair[1]));
        self.letters_or_floats += u64::from(letter_or_floats_differ(pair));
        if let [Answer::Penetration(one, _), Answer::Penetration(other, _)] = pair {
            self.note_points(one, other);
        } else {
            self.letters += 1;
        }
    }

    fn note_points(&mut self, one: &[Vector; 3], other: &[Vector; 3]) {
        let differ = |i: usize| vectors_differ(&one[i], &other[i]);
        let difference = |i: usize| greatest_difference(&one[i], &other[i]);
        self.points += u64::from(differ(0) || differ(1));
        self.normals += u64::from(differ(2));
        self.largest_of_points = self.largest_of_points.max(difference(0)).max(difference(1));
        self.largest_of_normals = self.largest_of_normals.max(difference(2));
    }

    fn print(&self, output: &mut impl Write, order: &str) -> io::Result<()> {
        writeln!(output, "equal keys: {order} against the heap's order")?;
        writeln!(output, "  records that penetrate {}", self.penetrations)?;
        writeln!(output, "  line differs {}", self.lines)?;
        writeln!(
            output,
            "  letter, points or normal differ {}",
            self.letters_or_floats
        )?;
        writeln!(output, "  letter differs {}", self.letters)?;
        writeln!(
            output,
            "  points differ {}, at most by {:e}",
            self.points, self.largest_of_points
        )?;
        writeln!(
            output,
            "  normal differs {}, at most by {:e}",
            self.normals, self.largest_of_normals
        )
    }
}

pub fn order(input: impl Read, output: &mut impl Write, rooms: Rooms) -> io::Result<()> {
    let mut reader = Reader::new(input);
    let mut first = Pair::<FirstEpa>::new(rooms);
    let mut last = Pair::<LastEpa>::new(rooms);
    let mut figures = [Figures::default(), Figures::default()];
    let mut records: u64 = 0;
    while let Some(record) = reader.well_formed()? {
        records += 1;
        if let Some(pair) = first.penetrations(&record) {
            figures[0].note(&pair);
        }
        if let Some(pair) = last.penetrations(&record) {
            figures[1].note(&pair);
        }
    }
    writeln!(output, "records {records}")?;
    figures[0].print(output, "made first pops first")?;
    figures[1].print(output, "made last pops first")
}
