//! `heap`: the order in which the toolchain's heap pops equal keys.

use parry3d::query::epa::epa3::EPA;
use parry3d::query::epa::Readable;
use std::io::{self, Write};

const MOST: usize = 8;

pub fn heap(output: &mut impl Write) -> io::Result<()> {
    for faces in 1..=MOST {
        let order = EPA::pop_order_of_equals(faces);
        let words: Vec<String> = order.iter().map(usize::to_string).collect();
        writeln!(output, "{faces} equal keys pop as {}", words.join(" "))?;
    }
    Ok(())
}
