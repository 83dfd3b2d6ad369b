//! `casts`: the cast of gjk.rs over records of plain words.
//!
//! A cast is 34 words of four bytes, lowest byte first: kind and nine numbers of each shape, quaternion, translation, the ray's origin
//! and direction, the largest time. Its line is the number of the answer (0 an impact, 6 a miss, 2 a panic), the time and the direction.

use crate::casefile::{Record, Shape};
use crate::families::{self, Family};
use crate::lines;
use crate::published::{self, vector, Published};
use crate::random::Random;
use crate::stats;
use parry3d::math::{Pose, Vector};
use parry3d::query::gjk::{record, VoronoiSimplex};
use parry3d::query::ways::{self, Way};
use parry3d::query::{gjk_ways, Ray};
use parry3d::shape::SupportMap;
use std::collections::BTreeMap;
use std::io::{self, BufWriter, Read, Write};
use std::panic::{self, AssertUnwindSafe};
use std::sync::atomic::Ordering;

const WORDS: usize = 34;
const BYTES: usize = 4 * WORDS;

pub struct Cast {
    first: Shape,
    second: Shape,
    rotation: [f32; 4],
    translation: [f32; 3],
    origin: [f32; 3],
    dir: [f32; 3],
    max_time: f32,
}

// ---- generated casts

fn sum(a: [f32; 3], b: [f32; 3]) -> [f32; 3] {
    [a[0] + b[0], a[1] + b[1], a[2] + b[2]]
}

fn scaled(a: [f32; 3], factor: f32) -> [f32; 3] {
    a.map(|part| part * factor)
}

/// Half of the rays start at 0, as those of a shape swept along a line do.
fn origin(random: &mut Random, other: &Record) -> [f32; 3] {
    match random.below(8) {
        0..=3 => [0.0; 3],
        4 | 5 => other.translation,
        6 => other.direction,
        _ => scaled(other.translation, 4.0),
    }
}

/// Most rays lead to the middle of the difference of the shapes, or past it.
fn direction(random: &mut Random, record: &Record, other: &Record, origin: [f32; 3]) -> [f32; 3] {
    let towards = scaled(sum(record.translation, origin), -1.0);
    match random.below(20) {
        0..=7 => towards,
        8..=12 => sum(towards, other.direction),
        13 | 14 => sum(towards, scaled(other.direction, 0.125)),
        15 => other.direction,
        16 => {
            let mut axis = [0.0; 3];
            axis[random.below(3)] = random.signed(1.0);
            axis
        }
        17 => scaled(towards, -1.0),
        18 => {
            // Near the length at which a direction counts as none.
            let length = random.scaled(-26, -21);
            scaled(other.direction, length)
        }
        _ => random.pick(&[[0.0; 3], [-0.0, 0.0, 0.0], record.direction]),
    }
}

fn max_time(random: &mut Random, record: &Record) -> f32 {
    match random.below(8) {
        0..=3 => f32::MAX,
        4 => record.max_distance,
        5 => random.between(0.0, 2.0),
        6 => 1.0,
        _ => random.pick(&[0.0, -1.0, 0.5, f32::INFINITY, f32::NAN]),
    }
}

/// Two records of a family: the first has the shapes, the second gives numbers for the ray.
fn cast(random: &mut Random, family: Family) -> Cast {
    let (record, other) = (family(random), family(random));
    let origin = origin(random, &other);
    let mut dir = direction(random, &record, &other, origin);
    if random.chance(30) {
        dir = scaled(dir, random.pick(&[0.25, 0.5, 3.0, 1000.0]));
    }
    Cast {
        first: record.first,
        second: record.second,
        rotation: record.rotation,
        translation: record.translation,
        origin,
        dir,
        max_time: max_time(random, &record),
    }
}

fn push_floats(bytes: &mut Vec<u8>, floats: &[f32]) {
    for float in floats {
        bytes.extend(float.to_bits().to_le_bytes());
    }
}

fn push_shape(bytes: &mut Vec<u8>, shape: &Shape) {
    let mut numbers = [0.0; 9];
    numbers[..shape.numbers().len()].copy_from_slice(shape.numbers());
    bytes.extend(shape.kind().to_le_bytes());
    push_floats(bytes, &numbers);
}

/// False if there is no such family.
pub fn generate(output: impl Write, name: &str, seed: u64, count: u64) -> io::Result<bool> {
    let Some(family) = families::by_name(name) else {
        return Ok(false);
    };
    let mut output = BufWriter::new(output);
    let mut random = Random::new(seed);
    let mut bytes = Vec::with_capacity(BYTES);
    for _ in 0..count {
        let cast = cast(&mut random, family);
        bytes.clear();
        push_shape(&mut bytes, &cast.first);
        push_shape(&mut bytes, &cast.second);
        push_floats(&mut bytes, &cast.rotation);
        push_floats(&mut bytes, &cast.translation);
        push_floats(&mut bytes, &cast.origin);
        push_floats(&mut bytes, &cast.dir);
        push_floats(&mut bytes, &[cast.max_time]);
        output.write_all(&bytes)?;
    }
    output.flush()?;
    Ok(true)
}

// ---- casts read

fn shape(words: &[u32]) -> Shape {
    let number = |place: usize| f32::from_bits(words[place + 1]);
    match words[0] {
        0 => Shape::Ball([number(0)]),
        1 => Shape::Cuboid([0, 1, 2].map(number)),
        2 => Shape::Capsule([0, 1, 2, 3, 4, 5, 6].map(number)),
        _ => Shape::Triangle([0, 1, 2, 3, 4, 5, 6, 7, 8].map(number)),
    }
}

/// None at the end of the input, or where it ends inside a cast.
fn read(input: &mut impl Read) -> io::Result<Option<Cast>> {
    let mut bytes = [0; BYTES];
    match input.read_exact(&mut bytes) {
        Ok(()) => {}
        Err(error) if error.kind() == io::ErrorKind::UnexpectedEof => return Ok(None),
        Err(error) => return Err(error),
    }
    let word = |place: usize| u32::from_le_bytes([0, 1, 2, 3].map(|i| bytes[4 * place + i]));
    let words: Vec<u32> = (0..WORDS).map(word).collect();
    let three = |place: usize| [0, 1, 2].map(|i| f32::from_bits(words[place + i]));
    Ok(Some(Cast {
        first: shape(&words[..10]),
        second: shape(&words[10..20]),
        rotation: [20, 21, 22, 23].map(|i| f32::from_bits(words[i])),
        translation: three(24),
        origin: three(27),
        dir: three(30),
        max_time: f32::from_bits(words[33]),
    }))
}

// ---- casts answered

/// A cast of the published text or of its edited copy.
type RayCast = fn(
    &Pose,
    &dyn SupportMap,
    &dyn SupportMap,
    &Ray,
    f32,
    &mut VoronoiSimplex,
) -> Option<(f32, Vector)>;

fn edited(
    pos12: &Pose,
    g1: &dyn SupportMap,
    g2: &dyn SupportMap,
    ray: &Ray,
    max_time: f32,
    simplex: &mut VoronoiSimplex,
) -> Option<(f32, Vector)> {
    gjk_ways::minkowski_ray_cast(pos12, g1, g2, ray, max_time, simplex)
}

/// The answer as number and values: the line without its end.
fn answer(cast: &Cast, ray_cast: RayCast) -> (u8, [u32; 4]) {
    let (first, second) = (Published::from(cast.first), Published::from(cast.second));
    let pos12 = published::pose(cast.translation, cast.rotation);
    let ray = Ray::new(vector(cast.origin), vector(cast.dir));
    let (g1, g2) = (first.support_map(), second.support_map());
    // Each cast begins with a new simplex, so a panic leaves nothing behind.
    let run = AssertUnwindSafe(|| {
        ray_cast(
            &pos12,
            g1,
            g2,
            &ray,
            cast.max_time,
            &mut VoronoiSimplex::new(),
        )
    });
    match panic::catch_unwind(run) {
        Ok(Some((time, dir))) => (0, [time, dir.x, dir.y, dir.z].map(lines::bits)),
        Ok(None) => (6, [0; 4]),
        Err(_) => (2, [0; 4]),
    }
}

/// Casts on standard input, lines on standard output.
pub fn run(mut input: impl Read, output: impl Write) -> io::Result<()> {
    let mut output = BufWriter::new(output);
    while let Some(cast) = read(&mut input)? {
        let (number, values) = answer(&cast, record::minkowski_ray_cast);
        let mut line = vec![b'0' + number];
        for value in values {
            lines::push_hex(&mut line, f32::from_bits(value));
        }
        line.push(b'\n');
        output.write_all(&line)?;
    }
    output.flush()
}

// ---- what casts reach

#[derive(Default)]
struct Ways {
    numbers: BTreeMap<u8, u64>,
    ways: BTreeMap<Way, u64>,
    not_added: u64,
    lowered: u64,
    differ: u64,
}

impl Ways {
    fn note(&mut self, cast: &Cast) {
        let published = answer(cast, record::minkowski_ray_cast);
        ways::begin();
        stats::NOTING.store(false, Ordering::Relaxed);
        let copy = answer(cast, edited);
        stats::NOTING.store(true, Ordering::Relaxed);
        *self.numbers.entry(published.0).or_default() += 1;
        *self.ways.entry(ways::way()).or_default() += 1;
        self.not_added += u64::from(ways::not_added());
        self.lowered += u64::from(ways::has_lowered());
        self.differ += u64::from(published != copy);
    }

    fn print(&self, output: &mut impl Write) -> io::Result<()> {
        for (number, count) in &self.numbers {
            writeln!(output, "number {number} {count}")?;
        }
        stats::print_panic_sites(output)?;
        for (way, count) in &self.ways {
            writeln!(output, "way out {way:?} {count}")?;
        }
        writeln!(output, "with a new lower bound {}", self.lowered)?;
        writeln!(output, "with a point that was not added {}", self.not_added)?;
        writeln!(
            output,
            "answered otherwise by the edited copy {}",
            self.differ
        )
    }
}

/// Casts on standard input; which ways out they take, by the edited copy.
pub fn ways(mut input: impl Read, output: &mut impl Write) -> io::Result<()> {
    stats::note_panic_sites();
    let mut found = Ways::default();
    while let Some(cast) = read(&mut input)? {
        found.note(&cast);
    }
    found.print(output)?;
    if found.differ > 0 {
        return Err(io::Error::other("the edited copy answers otherwise"));
    }
    Ok(())
}
