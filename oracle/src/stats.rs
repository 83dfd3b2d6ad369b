//! `stats`: what a case file reaches: letters, panic sites, ways out, expansions.

use crate::casefile::Reader;
use crate::channel::{Answer, Channel};
use crate::lines;
use parry3d::query::epa::epa3_plain::EPA;
use parry3d::query::epa::{Polytope, Readable, Rooms};
use std::collections::BTreeMap;
use std::io::{self, Read, Write};
use std::panic;
use std::path::Path;
use std::sync::atomic::{AtomicBool, Ordering};
use std::sync::Mutex;

/// How often each place of the source panicked. The hook is the only one that learns it.
static PANIC_SITES: Mutex<BTreeMap<String, u64>> = Mutex::new(BTreeMap::new());

/// Off while a run is only repeated.
pub static NOTING: AtomicBool = AtomicBool::new(true);

pub fn note_panic_sites() {
    panic::set_hook(Box::new(|info| {
        if !NOTING.load(Ordering::Relaxed) {
            return;
        }
        let site = info.location().map_or("unknown".to_string(), |location| {
            let file = Path::new(location.file()).file_name().unwrap_or_default();
            format!("{}:{}", file.display(), location.line())
        });
        let mut sites = PANIC_SITES.lock().expect("no panic inside the hook");
        *sites.entry(site).or_default() += 1;
    }));
}

pub fn print_panic_sites(output: &mut impl Write) -> io::Result<()> {
    for (site, count) in PANIC_SITES.lock().expect("no panic inside the hook").iter() {
        writeln!(output, "panic at {site} {count}")?;
    }
    Ok(())
}

#[derive(Default)]
struct Stats {
    letters: BTreeMap<char, u64>,
    ways_out: BTreeMap<String, u64>,
    expansions: BTreeMap<usize, u64>,
    most_faces: usize,
    most_edges: usize,
    most_heap: usize,
    most_pending: usize,
    with_missed: u64,
    most_missed: usize,
}

impl Stats {
    fn note(&mut self, answer: &Answer, polytope: Option<&EPA>) {
        *self.letters.entry(lines::letter(answer)).or_default() += 1;
        if let Some(polytope) = polytope {
            self.note_run(answer, polytope);
        }
    }

    fn note_run(&mut self, answer: &Answer, polytope: &EPA) {
        let way_out = match answer {
            Answer::Panic => "Panic".to_string(),
            Answer::NoRoom(_) => "NoRoom".to_string(),
            _ => format!("{:?}", polytope.way_out()),
        };
        *self.ways_out.entry(way_out).or_default() += 1;
        let counts = polytope.counts();
        *self.expansions.entry(counts.expansions).or_default() += 1;
        self.most_faces = self.most_faces.max(counts.faces_made);
        self.most_edges = self.most_edges.max(counts.most_edges);
        self.most_heap = self.most_heap.max(polytope.most_heap());
        self.most_pending = self.most_pending.max(polytope.most_pending());
        self.with_missed += u64::from(counts.missed > 0);
        self.most_missed = self.most_missed.max(counts.missed);
    }

    fn print(&self, output: &mut impl Write) -> io::Result<()> {
        for (letter, count) in &self.letters {
            writeln!(output, "letter {letter} {count}")?;
        }
        print_panic_sites(output)?;
        for (way_out, count) in &self.ways_out {
            writeln!(output, "way out {way_out} {count}")?;
        }
        for (expansions, count) in &self.expansions {
            writeln!(output, "expansions {expansions} {count}")?;
        }
        writeln!(
            output,
            "most faces {}, most edges {}, most heap entries {}, most pending questions {}",
            self.most_faces, self.most_edges, self.most_heap, self.most_pending
        )?;
        writeln!(
            output,
            "runs with lookups that missed {}, most missed {}",
            self.with_missed, self.most_missed
        )
    }
}

pub fn stats(input: impl Read, output: &mut impl Write, rooms: Rooms) -> io::Result<()> {
    note_panic_sites();
    let mut reader = Reader::new(input);
    let mut channel = Channel::<EPA>::new(rooms);
    let mut stats = Stats::default();
    while let Some(record) = reader.well_formed()? {
        let answer = channel.answer(&record);
        stats.note(&answer, channel.polytope());
    }
    stats.print(output)
}
