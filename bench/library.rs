//! The call alone: the records of a case file are decoded first, then answered one after another by the published Rust
//! and, where the port's library was linked (`--cfg port`), by the port. Prints a line for each: its name, the processor
//! time in seconds, and a checksum of all answers, which must be the same for `rust` and `port`.
//!
//!   library FILE

#[path = "../oracle/src/answer.rs"]
#[allow(dead_code)]
mod answer;
#[path = "../oracle/src/casefile.rs"]
#[allow(dead_code)]
mod casefile;
#[path = "../oracle/src/channel.rs"]
#[allow(dead_code)]
mod channel;
#[path = "../oracle/src/lines.rs"]
#[allow(dead_code, unused_imports)]
mod lines;
#[cfg(port)]
mod port;
#[path = "../oracle/src/published.rs"]
mod published;

use casefile::{Reader, Record};
use channel::{Answer, Channel};
use parry3d::query::epa::epa3::EPA;
use parry3d::query::epa::epa3_published::EPA as PublishedEpa;
use parry3d::query::epa::Rooms;
use std::io;
use std::process::ExitCode;

unsafe extern "C" {
    /// The processor time of this process in microseconds: other work beside it counts less than by the wall clock.
    safe fn clock() -> std::ffi::c_long;
}

/// Takes in words one by one; cheap beside a call, and the same for every library.
pub struct Checksum(u64);

impl Checksum {
    pub fn add(&mut self, word: u64) {
        self.0 = (self.0 ^ word).wrapping_mul(0x9E37_79B9_7F4A_7C15).rotate_left(29);
    }

    pub fn add_float(&mut self, float: f32) {
        self.add(u64::from(lines::bits(float)));
    }
}

fn print_timed(name: &str, records: &[Record], mut answer: impl FnMut(&Record, &mut Checksum)) -> u64 {
    let mut checksum = Checksum(0);
    let start = clock();
    for record in records {
        answer(record, &mut checksum);
    }
    let seconds = (clock() - start) as f64 / 1e6;
    println!("{name} {seconds:.6} {:016x}", checksum.0);
    checksum.0
}

fn add_answer(checksum: &mut Checksum, answer: &Answer) {
    checksum.add(lines::letter(answer) as u64);
    for vector in lines::vectors(answer) {
        checksum.add_float(vector.x);
        checksum.add_float(vector.y);
        checksum.add_float(vector.z);
    }
    let Some(counts) = lines::counts(answer) else { return };
    for count in [counts.expansions, counts.faces_made, counts.faces_live, counts.most_edges, counts.missed] {
        checksum.add(count as u64);
    }
}

/// The published text over stores of a lent length, with the counts of each run: the port's job.
fn time_rust(records: &[Record]) -> u64 {
    let mut channel = Channel::<EPA>::new(Rooms::PROGRAM);
    print_timed("rust", records, |record, checksum| add_answer(checksum, &channel.answer(record)))
}

/// The text without our edits, whose stores grow and whose counts are not kept: shows that the edits cost nothing much.
fn time_unedited(records: &[Record]) {
    let mut channel = Channel::<PublishedEpa>::new(Rooms::NO_LIMIT);
    print_timed("unedited", records, |record, checksum| add_answer(checksum, &channel.answer(record)));
}

#[cfg(port)]
fn time_port(records: &[Record]) -> Option<u64> {
    let calls: Vec<port::Call> = records.iter().map(port::Call::from).collect();
    let mut room = port::Room::default();
    let mut next = calls.iter();
    Some(print_timed("port", records, |_, checksum| {
        let call = next.next().expect("a call for each record");
        port::add_answer(checksum, &call.run(&mut room));
    }))
}

#[cfg(not(port))]
fn time_port(_: &[Record]) -> Option<u64> {
    None
}

fn decoded(path: &str) -> io::Result<Vec<Record>> {
    let mut reader = Reader::new(std::fs::File::open(path)?);
    let mut records = Vec::new();
    while let Some(record) = reader.well_formed()? {
        records.push(record);
    }
    Ok(records)
}

/// Status 1: the checksums differ, or the file cannot be read. Status 2: the command line is wrong.
fn main() -> ExitCode {
    channel::silence_panics();
    let Some(path) = std::env::args().nth(1) else {
        eprintln!("library FILE");
        return ExitCode::from(2);
    };
    let records = match decoded(&path) {
        Ok(records) => records,
        Err(error) => {
            eprintln!("library: {path}: {error}");
            return ExitCode::FAILURE;
        }
    };
    let rust = time_rust(&records);
    time_unedited(&records);
    match time_port(&records) {
        Some(port) if port != rust => {
            eprintln!("library: {path}: the answers of port and Rust differ");
            ExitCode::FAILURE
        }
        _ => ExitCode::SUCCESS,
    }
}
