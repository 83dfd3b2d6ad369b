//! The crate behind a case file: standard input to standard output, by its public calls alone. The lines are the
//! program's with the counts left out, which the crate keeps to itself.

#[cfg(feature = "f64")]
compile_error!("the double edition needs document 02's case file with ten groups and lines with sixteen digits, which are not here yet");
#[cfg(feature = "f64")]
extern crate parry3d_f64 as parry3d;

#[path = "../../src/answer.rs"]
#[allow(dead_code)]
mod answer;
#[path = "../../src/casefile.rs"]
#[allow(dead_code)]
mod casefile;
#[path = "../../src/published.rs"]
#[allow(dead_code)]
mod published;

use answer::Answer;
use casefile::{Next, Reader, Record, Shape};
use parry3d::math::Vector;
use parry3d::query::epa::EPA;
use parry3d::shape::{Cuboid, SupportMap};
use published::Published;
use std::io::{self, BufWriter, Read, Write};
use std::panic;
use std::process::ExitCode;

/// The crate's cuboid, asked in no NaN of negative sign. The crate reads that sign, which Rust does not fix; the port takes
/// it as positive (docs/DIFFERENCES.md). Every other direction goes through as it is.
struct PositiveNan(Cuboid);

impl SupportMap for PositiveNan {
    fn local_support_point(&self, dir: Vector) -> Vector {
        let positive = |float| f32::from_bits(answer::bits(float));
        let dir = Vector::new(positive(dir.x), positive(dir.y), positive(dir.z));
        self.0.local_support_point(dir)
    }
}

fn support_map(shape: Shape) -> Box<dyn SupportMap> {
    match Published::from(shape) {
        Published::Ball(ball) => Box::new(ball),
        Published::Cuboid(cuboid) => Box::new(PositiveNan(cuboid)),
        Published::Capsule(capsule) => Box::new(capsule),
        Published::Triangle(triangle) => Box::new(triangle),
    }
}

/// A new polytope for each record, so that nothing of an earlier one can matter.
fn answer(record: &Record) -> Answer<()> {
    let run = || {
        let (first, second) = (support_map(record.first), support_map(record.second));
        let (g1, g2) = (first.as_ref(), second.as_ref());
        published::answer(record, g1, g2, |pos12, simplex| {
            (EPA::new().closest_points(pos12, g1, g2, simplex), ())
        })
    };
    panic::catch_unwind(run).unwrap_or(Answer::Panic)
}

fn print_lines(input: impl Read, mut output: impl Write) -> io::Result<()> {
    let mut reader = Reader::new(input);
    let mut line = Vec::new();
    let mut finished: u32 = 0;
    writeln!(output, "separation 1")?;
    // After the last number that a record can have, the program stops as at the file's end.
    while finished < u32::MAX {
        match reader.next()? {
            Next::Record(record) => {
                finished += 1;
                line.clear();
                answer::push_head(&mut line, finished, &answer(&record));
                line.push(b'\n');
                output.write_all(&line)?;
            }
            Next::Bad(offset) => {
                writeln!(output, "bad {offset}")?;
                break;
            }
            Next::End => break,
        }
    }
    writeln!(output, "cases {finished}")?;
    output.flush()
}

fn main() -> ExitCode {
    // Panics are answers here, so nothing is to be printed about them.
    panic::set_hook(Box::new(|_| {}));
    match print_lines(io::stdin().lock(), BufWriter::new(io::stdout().lock())) {
        Ok(()) => ExitCode::SUCCESS,
        // Who reads the output may stop early.
        Err(error) if error.kind() == io::ErrorKind::BrokenPipe => ExitCode::SUCCESS,
        Err(error) => {
            eprintln!("crate_lines: {error}");
            ExitCode::FAILURE
        }
    }
}
