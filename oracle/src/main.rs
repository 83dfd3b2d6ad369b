//! The oracle: the published Rust behind a case file. See oracle/README.md.

mod answer;
mod casefile;
mod casts;
mod channel;
mod damage;
mod edits;
mod families;
mod generate;
mod heap;
mod lines;
mod order;
mod published;
mod random;
mod reasons;
mod run;
mod smallest;
mod stats;
mod stores;

use parry3d::query::epa::epa3_first::EPA as FirstEpa;
use parry3d::query::epa::Rooms;
use std::io::{self, Read, Write};
use std::path::Path;
use std::process::ExitCode;

const USAGE: &str = "\
oracle run|reasons|stats|stores|order [ROOM...]   a case file on standard input
oracle edits                                      a case file on standard input
oracle order lines                                a case file on standard input
oracle order smallest
oracle heap
oracle families                                   the names that FAMILY can be, a line each
oracle gen FAMILY SEED COUNT                      a case file on standard output
oracle damage run|reasons SEED COUNT FOLDER       a case file on standard input
oracle casts gen FAMILY SEED COUNT                casts as words on standard output
oracle casts run|ways                             casts as words on standard input
ROOM is vertices=N, edges=N, faces=N, heap=N or pending=N
";

/// Status 2: the command line is wrong. Status 1: input or output failed, or `edits` or `casts ways`
/// found a difference, or a case file is malformed that `edits`, `stats`, `stores` or `order` reads.
fn main() -> ExitCode {
    channel::silence_panics();
    let arguments: Vec<String> = std::env::args().skip(1).collect();
    let words: Vec<&str> = arguments.iter().map(String::as_str).collect();
    match command(&words) {
        Ok(Some(())) => ExitCode::SUCCESS,
        Ok(None) => {
            eprint!("{USAGE}");
            ExitCode::from(2)
        }
        // Who reads the output may stop early.
        Err(error) if error.kind() == io::ErrorKind::BrokenPipe => ExitCode::SUCCESS,
        Err(error) => {
            eprintln!("oracle: {error}");
            ExitCode::FAILURE
        }
    }
}

/// `None` if the words are no command.
fn command(words: &[&str]) -> io::Result<Option<()>> {
    let mut input = io::stdin().lock();
    let mut output = io::stdout().lock();
    match words {
        ["gen", family, seed, count] => {
            let (Ok(seed), Ok(count)) = (seed.parse(), count.parse()) else {
                return Ok(None);
            };
            let known = generate::generate(&mut output, family, seed, count)?;
            return Ok(known.then_some(()));
        }
        ["damage", name @ ("run" | "reasons"), seed, count, folder] => {
            let (Ok(seed), Ok(count)) = (seed.parse(), count.parse()) else {
                return Ok(None);
            };
            let mut original = Vec::new();
            input.read_to_end(&mut original)?;
            damage::damage(
                &original,
                Path::new(folder),
                seed,
                count,
                |copy, lines| match *name {
                    "run" => run::run(copy, lines, Rooms::PROGRAM),
                    _ => reasons::reasons(copy, lines, Rooms::PROGRAM),
                },
            )?;
        }
        ["casts", "gen", family, seed, count] => {
            let (Ok(seed), Ok(count)) = (seed.parse(), count.parse()) else {
                return Ok(None);
            };
            let known = casts::generate(&mut output, family, seed, count)?;
            return Ok(known.then_some(()));
        }
        ["casts", "run"] => casts::run(input, output)?,
        ["casts", "ways"] => casts::ways(input, &mut output)?,
        ["edits"] => edits::edits(input, &mut output)?,
        ["heap"] => heap::heap(&mut output)?,
        ["families"] => families::names().try_for_each(|name| writeln!(output, "{name}"))?,
        ["order", "smallest"] => smallest::smallest(&mut output, Rooms::PROGRAM)?,
        ["order", "lines"] => run::run_by::<FirstEpa>(input, &mut output, Rooms::PROGRAM)?,
        [name, sizes @ ..] => {
            let Some(rooms) = rooms(sizes) else {
                return Ok(None);
            };
            match *name {
                "run" => run::run(input, &mut output, rooms)?,
                "reasons" => reasons::reasons(input, &mut output, rooms)?,
                "stats" => stats::stats(input, &mut output, rooms)?,
                "stores" => stores::stores(input, &mut output, rooms)?,
                "order" => order::order(input, &mut output, rooms)?,
                _ => return Ok(None),
            }
        }
        [] => return Ok(None),
    }
    Ok(Some(()))
}

/// The rooms that the programs lend, some of them changed.
fn rooms(sizes: &[&str]) -> Option<Rooms> {
    let mut rooms = Rooms::PROGRAM;
    for size in sizes {
        let (store, room) = size.split_once('=')?;
        let room = room.parse().ok()?;
        match store {
            "vertices" => rooms.vertices = room,
            "edges" => rooms.edges = room,
            "faces" => rooms.faces = room,
            "heap" => rooms.heap = room,
            "pending" => rooms.pending = room,
            _ => return None,
        }
    }
    Some(rooms)
}
