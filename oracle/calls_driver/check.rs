//! Calls by kind: each is sent to the port with what the Rust answers.

use crate::answers::Answer;
use crate::families::Family;
use crate::port::{Compared, Label, Port};
use crate::values::Simplex;
use crate::words::Put;
use std::collections::BTreeMap;
use std::panic::{catch_unwind, AssertUnwindSafe};

#[derive(Default)]
struct Kind {
    calls: u64,
    refused: u64,
}

pub struct Check {
    pub family: Family,
    port: Port,
    kinds: BTreeMap<&'static str, Kind>,
}

impl Check {
    pub fn open() -> Self {
        Self {
            family: Family::Ordinary,
            port: Port::open(),
            kinds: BTreeMap::new(),
        }
    }

    /// One call: what the Rust answers, none for a panic.
    pub fn call(
        &mut self,
        name: &'static str,
        function: u32,
        arguments: &impl Put,
        rust: Option<impl Into<Answer>>,
    ) -> Compared {
        let refused = rust.is_none();
        self.ask(name, function, arguments, refused, &Answer::from(rust))
    }

    /// One call that neither side can refuse.
    pub fn same(
        &mut self,
        name: &'static str,
        function: u32,
        arguments: &impl Put,
        rust: impl Into<Answer>,
    ) -> Compared {
        self.call(name, function, arguments, Some(rust))
    }

    /// One call that alters: the simplex after it, and the answer.
    pub fn altered(
        &mut self,
        name: &'static str,
        function: u32,
        arguments: &impl Put,
        rust: (Simplex, Option<impl Into<Answer>>),
    ) -> Compared {
        let refused = rust.1.is_none();
        let answer = (rust.0, Answer::from(rust.1));
        self.ask(name, function, arguments, refused, &answer)
    }

    pub fn ask(
        &mut self,
        name: &'static str,
        function: u32,
        arguments: &impl Put,
        refused: bool,
        answer: &impl Put,
    ) -> Compared {
        let kind = self.kinds.entry(name).or_default();
        kind.calls += 1;
        kind.refused += u64::from(refused);
        let family = self.family.name();
        self.port
            .ask(Label { name, family }, function, arguments, answer)
    }

    /// Calls by kind, once all have answered; the difference if one differs.
    pub fn close(self, done: Compared) -> Compared {
        self.port.close().and(done)?;
        let mut calls = 0;
        println!("{:>12} {:>12}  kind", "calls", "refused");
        for (name, kind) in &self.kinds {
            println!("{:12} {:12}  {name}", kind.calls, kind.refused);
            calls += kind.calls;
        }
        println!("{calls} calls compared, 0 different");
        Ok(())
    }
}

/// None where the Rust panics.
pub fn caught<T>(answer: impl FnOnce() -> T) -> Option<T> {
    catch_unwind(AssertUnwindSafe(answer)).ok()
}
