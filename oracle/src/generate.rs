//! `gen`: writes a case file of one family.

use crate::casefile;
use crate::families;
use crate::random::Random;
use std::io::{self, Write};

const FLUSH_AT: usize = 1 << 16;

/// False if there is no such family.
pub fn generate(output: &mut impl Write, name: &str, seed: u64, count: u64) -> io::Result<bool> {
    let Some(family) = families::by_name(name) else {
        return Ok(false);
    };
    let mut random = Random::new(seed);
    let mut bytes = Vec::with_capacity(2 * FLUSH_AT);
    for _ in 0..count {
        casefile::write_record(&mut bytes, &family(&mut random));
        if bytes.len() >= FLUSH_AT {
            output.write_all(&bytes)?;
            bytes.clear();
        }
    }
    output.write_all(&bytes)?;
    output.flush()?;
    Ok(true)
}
