//! `damage`: damaged copies of a case file, each beside what must be printed for it.
//!
//! Copy n of the folder is `n.case`, the lines for it are `n.lines`, as `run` or `reasons` prints
//! them. Up to three times a copy is cut, or gets some of its bytes changed, put in, or taken out.

use crate::random::Random;
use std::fs;
use std::io;
use std::path::Path;

/// Bytes that change what a number means: ends, continuations, zeros, limits of the fifth group.
const TELLING: [u8; 8] = [0x00, 0x01, 0x0F, 0x10, 0x7F, 0x80, 0x81, 0xFF];

fn byte(random: &mut Random) -> u8 {
    if random.chance(50) {
        random.pick(&TELLING)
    } else {
        random.bits() as u8
    }
}

fn damage_once(random: &mut Random, copy: &mut Vec<u8>) {
    if copy.is_empty() {
        return;
    }
    let place = random.below(copy.len());
    let length = 1 + random.below(3);
    let end = copy.len().min(place + length);
    match random.below(4) {
        0 => copy.truncate(place),
        1 => copy[place..end].fill_with(|| byte(random)),
        2 => {
            let put_in: Vec<u8> = (0..length).map(|_| byte(random)).collect();
            copy.splice(place..place, put_in);
        }
        _ => {
            copy.drain(place..end);
        }
    }
}

/// `print` writes the lines of a case file.
pub fn damage(
    original: &[u8],
    folder: &Path,
    seed: u64,
    count: u64,
    print: impl Fn(&[u8], &mut Vec<u8>) -> io::Result<()>,
) -> io::Result<()> {
    fs::create_dir_all(folder)?;
    let mut random = Random::new(seed);
    for number in 1..=count {
        let mut copy = original.to_vec();
        for _ in 0..1 + random.below(3) {
            damage_once(&mut random, &mut copy);
        }
        let mut lines = Vec::new();
        print(&copy, &mut lines)?;
        fs::write(folder.join(format!("{number}.case")), &copy)?;
        fs::write(folder.join(format!("{number}.lines")), &lines)?;
    }
    Ok(())
}
