//! The families of generated records. Each is a function from random numbers to a record.

mod arms;
mod coincident;
mod grid;
mod limits;
mod parts;
mod scales;
mod touching;

use crate::casefile::Record;
use crate::random::Random;

pub type Family = fn(&mut Random) -> Record;

pub const FAMILIES: [(&str, Family); 10] = [
    ("ordinary", scales::ordinary),
    ("grid", grid::grid),
    ("mixed", scales::mixed),
    ("limits", limits::limits),
    ("bits", limits::bits),
    ("tiny", scales::tiny),
    ("huge", scales::huge),
    ("touching", touching::touching),
    ("coincident", coincident::coincident),
    ("arms", arms::arms),
];

const ANY: &str = "all";

/// One record of any family.
fn all(random: &mut Random) -> Record {
    let (_, family) = FAMILIES[random.below(FAMILIES.len())];
    family(random)
}

/// Every name that `by_name` knows.
pub fn names() -> impl Iterator<Item = &'static str> {
    std::iter::once(ANY).chain(FAMILIES.iter().map(|(name, _)| *name))
}

pub fn by_name(name: &str) -> Option<Family> {
    if name == ANY {
        return Some(all);
    }
    let found = FAMILIES.iter().find(|(known, _)| *known == name);
    found.map(|(_, family)| *family)
}
