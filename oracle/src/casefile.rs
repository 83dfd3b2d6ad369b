//! The case file: numbers in groups of seven bits, records, reading and writing.

use std::io::{self, Read};

/// A shape as a record has it: its kind decides how many numbers follow.
#[derive(Copy, Clone, Debug, PartialEq)]
pub enum Shape {
    Ball([f32; 1]),
    Cuboid([f32; 3]),
    Capsule([f32; 7]),
    Triangle([f32; 9]),
}

impl Shape {
    pub fn kind(&self) -> u32 {
        match self {
            Shape::Ball(_) => 0,
            Shape::Cuboid(_) => 1,
            Shape::Capsule(_) => 2,
            Shape::Triangle(_) => 3,
        }
    }

    pub fn numbers(&self) -> &[f32] {
        match self {
            Shape::Ball(numbers) => numbers,
            Shape::Cuboid(numbers) => numbers,
            Shape::Capsule(numbers) => numbers,
            Shape::Triangle(numbers) => numbers,
        }
    }
}

#[derive(Copy, Clone, Debug, PartialEq)]
pub struct Record {
    pub first: Shape,
    pub second: Shape,
    /// x, y, z, w
    pub rotation: [f32; 4],
    pub translation: [f32; 3],
    pub direction: [f32; 3],
    pub max_distance: f32,
    pub exact: bool,
}

pub fn write_number(out: &mut Vec<u8>, mut number: u32) {
    while number >= 0x80 {
        out.push(number as u8 | 0x80);
        number >>= 7;
    }
    out.push(number as u8);
}

fn write_floats(out: &mut Vec<u8>, floats: &[f32]) {
    for float in floats {
        write_number(out, float.to_bits());
    }
}

fn write_shape(out: &mut Vec<u8>, shape: &Shape) {
    write_number(out, shape.kind());
    write_floats(out, shape.numbers());
}

pub fn write_record(out: &mut Vec<u8>, record: &Record) {
    write_shape(out, &record.first);
    write_shape(out, &record.second);
    write_floats(out, &record.rotation);
    write_floats(out, &record.translation);
    write_floats(out, &record.direction);
    write_floats(out, &[record.max_distance]);
    write_number(out, record.exact as u32);
}

/// Why a record could not be read.
enum Flaw {
    /// The number that starts at this place is malformed.
    Number(usize),
    /// The bytes end inside the record.
    Ended,
}

/// Reads one record's numbers in order; each is judged as soon as it is read.
struct Cursor<'a> {
    bytes: &'a [u8],
    place: usize,
}

impl Cursor<'_> {
    #[inline]
    fn number(&mut self) -> Result<u32, Flaw> {
        let start = self.place;
        let mut number = 0;
        for group in 0..5 {
            let byte = *self.bytes.get(self.place).ok_or(Flaw::Ended)?;
            self.place += 1;
            // A fifth group above 15 leaves 32 bits; with its top bit set it asks for a sixth.
            if group == 4 && byte > 15 {
                return Err(Flaw::Number(start));
            }
            number |= u32::from(byte & 0x7F) << (7 * group);
            if byte < 0x80 {
                let zero_not_alone = byte == 0 && group > 0;
                return if zero_not_alone {
                    Err(Flaw::Number(start))
                } else {
                    Ok(number)
                };
            }
        }
        unreachable!("the fifth group ends the number or is malformed")
    }

    fn at_most(&mut self, most: u32) -> Result<u32, Flaw> {
        let start = self.place;
        let number = self.number()?;
        if number > most {
            return Err(Flaw::Number(start));
        }
        Ok(number)
    }

    #[inline]
    fn floats<const N: usize>(&mut self) -> Result<[f32; N], Flaw> {
        let mut floats = [0.0; N];
        for float in &mut floats {
            *float = f32::from_bits(self.number()?);
        }
        Ok(floats)
    }

    fn shape(&mut self) -> Result<Shape, Flaw> {
        Ok(match self.at_most(3)? {
            0 => Shape::Ball(self.floats()?),
            1 => Shape::Cuboid(self.floats()?),
            2 => Shape::Capsule(self.floats()?),
            _ => Shape::Triangle(self.floats()?),
        })
    }

    fn record(&mut self) -> Result<Record, Flaw> {
        Ok(Record {
            first: self.shape()?,
            second: self.shape()?,
            rotation: self.floats()?,
            translation: self.floats()?,
            direction: self.floats()?,
            max_distance: f32::from_bits(self.number()?),
            exact: self.at_most(1)? == 1,
        })
    }
}

/// What stands next in a case file.
pub enum Next {
    Record(Record),
    End,
    /// A malformed number or a file that ends too soon, with the offset to print.
    Bad(u64),
}

/// Two triangles and the rest are 32 numbers of at most five bytes.
const LONGEST_RECORD: usize = 32 * 5;
const BUFFER: usize = 1 << 18;

/// Reads a case file as a stream.
pub struct Reader<R> {
    input: R,
    buffer: Vec<u8>,
    start: usize,
    end: usize,
    /// The file's offset of `buffer[start]`.
    offset: u64,
    at_end: bool,
}

impl<R: Read> Reader<R> {
    pub fn new(input: R) -> Self {
        Self {
            input,
            buffer: vec![0; BUFFER],
            start: 0,
            end: 0,
            offset: 0,
            at_end: false,
        }
    }

    pub fn next(&mut self) -> io::Result<Next> {
        self.fill()?;
        let bytes = &self.buffer[self.start..self.end];
        if bytes.is_empty() {
            return Ok(Next::End);
        }
        let mut cursor = Cursor { bytes, place: 0 };
        Ok(match cursor.record() {
            Ok(record) => {
                self.start += cursor.place;
                self.offset += cursor.place as u64;
                Next::Record(record)
            }
            Err(Flaw::Number(place)) => Next::Bad(self.offset + place as u64),
            Err(Flaw::Ended) => Next::Bad(self.offset + bytes.len() as u64),
        })
    }

    /// The next record, or `None` at the file's end, for who has no answer to a malformed file: it is an error.
    pub fn well_formed(&mut self) -> io::Result<Option<Record>> {
        match self.next()? {
            Next::Record(record) => Ok(Some(record)),
            Next::End => Ok(None),
            Next::Bad(offset) => Err(io::Error::other(format!("malformed at byte {offset}"))),
        }
    }

    /// Makes sure that a whole record or the file's end is in the buffer.
    fn fill(&mut self) -> io::Result<()> {
        while self.end - self.start < LONGEST_RECORD && !self.at_end {
            self.buffer.copy_within(self.start..self.end, 0);
            self.end -= self.start;
            self.start = 0;
            match self.input.read(&mut self.buffer[self.end..]) {
                Ok(0) => self.at_end = true,
                Ok(count) => self.end += count,
                Err(error) if error.kind() == io::ErrorKind::Interrupted => {}
                Err(error) => return Err(error),
            }
        }
        Ok(())
    }
}
