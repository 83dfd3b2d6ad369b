//! `edits`: the edited copies of epa3.rs against the published text, with room without end.
//!
//! The edits are to touch no arithmetic and no test: letter and floats must be the same for
//! every record that reaches the polytope. The recursive and the plain walk must leave the same
//! counts and the same in their stores too, and the plain one no question that is pending.

use crate::casefile::{Reader, Record};
use crate::channel::{Answer, Channel};
use crate::order;
use crate::stores;
use parry3d::query::epa::epa3::EPA;
use parry3d::query::epa::epa3_plain::EPA as PlainEpa;
use parry3d::query::epa::epa3_published::EPA as PublishedEpa;
use parry3d::query::epa::{Contents, Readable, Rooms};
use std::io::{self, Read, Write};

/// The same record by the published text and by its copies with either walk.
struct Copies {
    published: Channel<PublishedEpa>,
    recursive: Channel<EPA>,
    plain: Channel<PlainEpa>,
}

impl Copies {
    fn new() -> Self {
        Self {
            published: Channel::new(Rooms::NO_LIMIT),
            recursive: Channel::new(Rooms::NO_LIMIT),
            plain: Channel::new(Rooms::NO_LIMIT),
        }
    }

    /// Whether the record reached the polytope; the answers and what differs in them, if something does.
    fn compare(&mut self, record: &Record) -> io::Result<bool> {
        let recursive = self.recursive.answer(record);
        if self.recursive.polytope().is_none() {
            return Ok(false);
        }
        let published = self.published.answer(record);
        if order::letter_or_floats_differ(&[recursive, published]) {
            return Err(difference(
                "edited and published text",
                recursive,
                published,
            ));
        }
        let plain = self.plain.answer(record);
        if order::line(&recursive) != order::line(&plain) || self.stores_differ()? {
            return Err(difference("recursive and plain walk", recursive, plain));
        }
        Ok(true)
    }

    /// Of the last record, which reached the polytope.
    fn stores_differ(&self) -> io::Result<bool> {
        let (Some(recursive), Some(plain)) = (self.recursive.polytope(), self.plain.polytope())
        else {
            return Ok(true);
        };
        let (recursive, plain) = (recursive.contents(), plain.contents());
        Ok(!plain.pending.is_empty() || entries(&recursive)? != entries(&plain)?)
    }
}

fn difference(of: &str, one: Answer, other: Answer) -> io::Error {
    io::Error::other(format!("{of} differ: {one:?}, {other:?}"))
}

/// The entries of the four stores that either walk fills, and the places ever used.
fn entries(contents: &Contents) -> io::Result<(Vec<u8>, usize, usize)> {
    let mut text = Vec::new();
    stores::push_entries(&mut text, contents)?;
    Ok((text, contents.most_silhouette, contents.most_heap))
}

pub fn edits(input: impl Read, output: &mut impl Write) -> io::Result<()> {
    let mut reader = Reader::new(input);
    let mut copies = Copies::new();
    let (mut records, mut reached): (u64, u64) = (0, 0);
    while let Some(record) = reader.well_formed()? {
        records += 1;
        let compared = copies.compare(&record);
        let numbered = |error| io::Error::other(format!("record {records}: {error}"));
        reached += u64::from(compared.map_err(numbered)?);
    }
    writeln!(
        output,
        "{records} records, {reached} reached the polytope, 0 different"
    )
}
