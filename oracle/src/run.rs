//! `run`: a case file in, the program's lines out.
//!
//! Records are answered in batches, a part of each batch on every core: the answers do not
//! depend on one another, and the lines come out in the records' order.

use crate::casefile::{Next, Reader, Record};
use crate::channel::Channel;
use crate::lines;
use parry3d::query::epa::epa3_plain::EPA;
use parry3d::query::epa::{Polytope, Rooms};
use std::io::{self, Read, Write};
use std::thread;

const BATCH: usize = 1 << 14;

/// How reading went on.
enum Reading {
    Goes,
    Ended,
    Bad(u64),
}

fn read_batch(
    reader: &mut Reader<impl Read>,
    batch: &mut Vec<Record>,
    most: usize,
) -> io::Result<Reading> {
    batch.clear();
    while batch.len() < most {
        match reader.next()? {
            Next::Record(record) => batch.push(record),
            Next::End => return Ok(Reading::Ended),
            Next::Bad(offset) => return Ok(Reading::Bad(offset)),
        }
    }
    Ok(Reading::Goes)
}

/// The lines of some records, the first of which has number `number`.
fn answer_part<P: Polytope>(
    channel: &mut Channel<P>,
    records: &[Record],
    mut number: u32,
) -> Vec<u8> {
    let mut text = Vec::new();
    for record in records {
        lines::push_line(&mut text, number, &channel.answer(record));
        number = number.wrapping_add(1);
    }
    text
}

fn answer_batch<P: Polytope + Send>(
    channels: &mut [Channel<P>],
    batch: &[Record],
    number: u32,
) -> Vec<Vec<u8>> {
    let part = batch.len().div_ceil(channels.len()).max(1);
    thread::scope(|scope| {
        let workers: Vec<_> = batch
            .chunks(part)
            .zip(channels)
            .enumerate()
            .map(|(i, (records, channel))| {
                let number = number + (i * part) as u32;
                scope.spawn(move || answer_part(channel, records, number))
            })
            .collect();
        let texts = workers.into_iter().map(|worker| worker.join());
        texts
            .map(|text| text.expect("panics are answers"))
            .collect()
    })
}

/// The lines that the program prints.
pub fn run(input: impl Read, output: &mut impl Write, rooms: Rooms) -> io::Result<()> {
    run_by::<EPA>(input, output, rooms)
}

/// The same by any copy of the polytope.
pub fn run_by<P: Polytope + Send>(
    input: impl Read,
    output: &mut impl Write,
    rooms: Rooms,
) -> io::Result<()> {
    let cores = thread::available_parallelism().map_or(1, usize::from);
    let mut channels: Vec<_> = (0..cores).map(|_| Channel::<P>::new(rooms)).collect();
    let mut reader = Reader::new(input);
    let mut batch = Vec::with_capacity(BATCH);
    let mut finished: u32 = 0;
    let mut reading = Reading::Goes;

    output.write_all(b"separation 1\n")?;
    while matches!(reading, Reading::Goes) && finished < u32::MAX {
        // After the last number that a record can have, the program stops as at the file's end.
        let most = BATCH.min((u32::MAX - finished) as usize);
        reading = read_batch(&mut reader, &mut batch, most)?;
        if !batch.is_empty() {
            for text in answer_batch(&mut channels, &batch, finished + 1) {
                output.write_all(&text)?;
            }
            finished += batch.len() as u32;
        }
    }
    if let Reading::Bad(offset) = reading {
        writeln!(output, "bad {offset}")?;
    }
    writeln!(output, "cases {finished}")?;
    output.flush()
}
