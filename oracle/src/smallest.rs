//! `order smallest`: the smallest record whose answer rests on the order of equal keys.
//!
//! Searched are all records over a small alphabet of numbers (below), by length in bytes. The
//! first length at which an answer differs is searched whole, and the record whose bytes come
//! first is reported. So it is the smallest of those searched, not of all records.

use crate::casefile::{write_number, Next, Reader, Record};
use crate::channel::Answer;
use crate::order::{self, Pair};
use parry3d::query::epa::epa3_first::EPA as FirstEpa;
use parry3d::query::epa::Rooms;
use std::io::{self, Write};

/// 2^-95, 2^-63 and 2^-31: of all numbers of five bytes these encode first.
const FIRST: [f32; 3] = [
    f32::from_bits(0x1000_0000),
    f32::from_bits(0x2000_0000),
    f32::from_bits(0x3000_0000),
];
/// A half extent's or a radius's sign is not read or only mirrors the shape.
const SIZES: [f32; 7] = [0.0, 0.5, 1.0, 2.0, FIRST[0], FIRST[1], FIRST[2]];
const COORDINATES: [f32; 7] = [0.0, 0.5, 1.0, 2.0, -0.5, -1.0, -2.0];
const ROTATION: [f32; 4] = [0.0, 0.5, 1.0, -1.0];
/// The least subnormal takes one byte.
const LEAST: f32 = f32::from_bits(1);
const DIRECTION: [f32; 7] = [0.0, LEAST, 1.0, -1.0, FIRST[0], FIRST[1], FIRST[2]];
const MAX_DISTANCE: [f32; 1] = [0.0];
const LONGEST: usize = 60;

/// What a record's places may hold, in the order of the record; each encoded.
type Places = Vec<Vec<Vec<u8>>>;

fn encoded(numbers: impl IntoIterator<Item = u32>) -> Vec<Vec<u8>> {
    let mut choices: Vec<Vec<u8>> = Vec::new();
    for number in numbers {
        let mut bytes = Vec::new();
        write_number(&mut bytes, number);
        choices.push(bytes);
    }
    // Bytes in order: the first record found of a length is then the first of its bytes.
    choices.sort();
    choices
}

fn floats(numbers: &[f32]) -> Vec<Vec<u8>> {
    encoded(numbers.iter().map(|number| number.to_bits()))
}

fn push_shape(places: &mut Places, kind: u32) {
    let (sizes, coordinates) = (floats(&SIZES), floats(&COORDINATES));
    places.push(encoded([kind]));
    match kind {
        0 => places.push(sizes),
        1 => places.extend([sizes.clone(), sizes.clone(), sizes]),
        2 => {
            places.extend(vec![coordinates; 6]);
            places.push(sizes);
        }
        _ => places.extend(vec![coordinates; 9]),
    }
}

fn places(first: u32, second: u32) -> Places {
    let mut places = Vec::new();
    push_shape(&mut places, first);
    push_shape(&mut places, second);
    places.extend(vec![floats(&ROTATION); 4]);
    places.extend(vec![floats(&COORDINATES); 3]);
    places.extend(vec![floats(&DIRECTION); 3]);
    places.push(floats(&MAX_DISTANCE));
    places.push(encoded([0, 1]));
    places
}

struct Search {
    pair: Pair<FirstEpa>,
    tried: u64,
    penetrated: u64,
    found: Option<(Vec<u8>, Record, [Answer; 2])>,
}

impl Search {
    /// Tries every record of exactly `left` more bytes, in the order of the bytes.
    fn fill(&mut self, places: &[Vec<Vec<u8>>], left: usize, bytes: &mut Vec<u8>) {
        let Some((choices, rest)) = places.split_first() else {
            self.attempt(bytes);
            return;
        };
        for choice in choices {
            // Every place takes at least a byte and at most five.
            let Some(left) = left.checked_sub(choice.len()) else {
                continue;
            };
            if left < rest.len() || left > 5 * rest.len() {
                continue;
            }
            bytes.extend_from_slice(choice);
            self.fill(rest, left, bytes);
            bytes.truncate(bytes.len() - choice.len());
        }
    }

    fn attempt(&mut self, bytes: &[u8]) {
        self.tried += 1;
        let record = decoded(bytes);
        let Some(pair) = self.pair.penetrations(&record) else {
            return;
        };
        self.penetrated += 1;
        let sooner = self.found.as_ref().is_none_or(|found| bytes < &found.0[..]);
        if sooner && order::letter_or_floats_differ(&pair) {
            self.found = Some((bytes.to_vec(), record, pair));
        }
    }
}

fn decoded(bytes: &[u8]) -> Record {
    match Reader::new(bytes).next() {
        Ok(Next::Record(record)) => record,
        _ => unreachable!("the search makes whole records"),
    }
}

fn print_found(
    output: &mut impl Write,
    (bytes, record, answers): &(Vec<u8>, Record, [Answer; 2]),
) -> io::Result<()> {
    let hex: Vec<String> = bytes.iter().map(|byte| format!("{byte:02X}")).collect();
    writeln!(output, "smallest found: {} bytes", bytes.len())?;
    writeln!(output, "{}", hex.join(" "))?;
    writeln!(output, "{record:?}")?;
    for (name, answer) in [("heap's order", &answers[0]), ("made first", &answers[1])] {
        write!(output, "{name}: ")?;
        output.write_all(&order::line(answer))?;
        writeln!(output, "  {answer:?}")?;
    }
    Ok(())
}

pub fn smallest(output: &mut impl Write, rooms: Rooms) -> io::Result<()> {
    writeln!(output, "sizes {SIZES:?}, coordinates {COORDINATES:?}")?;
    writeln!(output, "rotation {ROTATION:?}, direction {DIRECTION:?}")?;
    writeln!(
        output,
        "largest distance {MAX_DISTANCE:?}, exact flag 0 and 1"
    )?;
    let mut search = Search {
        pair: Pair::new(rooms),
        tried: 0,
        penetrated: 0,
        found: None,
    };
    for length in 1..=LONGEST {
        let before = (search.tried, search.penetrated);
        for kinds in 0..16 {
            search.fill(&places(kinds / 4, kinds % 4), length, &mut Vec::new());
        }
        writeln!(
            output,
            "length {length}: {} records tried, {} penetrate",
            search.tried - before.0,
            search.penetrated - before.1
        )?;
        output.flush()?;
        if let Some(found) = &search.found {
            return print_found(output, found);
        }
    }
    writeln!(output, "none found")
}
