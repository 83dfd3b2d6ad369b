//! A case: the numbers of two hulls and a direction, as words of four bytes, lowest byte first.

use std::io::{ErrorKind, Read, Result, Write};

pub struct Case {
    pub first: Vec<i32>,
    pub second: Vec<i32>,
    pub direction: [i32; 3],
}

fn words(bytes: &[u8]) -> Vec<i32> {
    bytes
        .chunks_exact(4)
        .map(|c| i32::from_le_bytes([c[0], c[1], c[2], c[3]]))
        .collect()
}

impl Case {
    /// None at the end of the file.
    pub fn read(input: &mut impl Read) -> Result<Option<Self>> {
        let mut head = [0; 20];
        match input.read_exact(&mut head) {
            Err(e) if e.kind() == ErrorKind::UnexpectedEof => return Ok(None),
            other => other?,
        }
        let head = words(&head);
        let mut body = vec![0; 4 * (head[0] + head[1]) as usize];
        input.read_exact(&mut body)?;
        let mut first = words(&body);
        let second = first.split_off(head[0] as usize);
        Ok(Some(Self {
            first,
            second,
            direction: [head[2], head[3], head[4]],
        }))
    }

    pub fn write(&self, out: &mut impl Write) -> Result<()> {
        let head = [self.first.len() as i32, self.second.len() as i32];
        for word in head
            .iter()
            .chain(&self.direction)
            .chain(&self.first)
            .chain(&self.second)
        {
            out.write_all(&word.to_le_bytes())?;
        }
        Ok(())
    }
}
