//! Records through the published Rust, one after another over the same lent stores.

use crate::answer;
use crate::casefile::Record;
use crate::published::{self, Published};
use parry3d::lent::NoRoom;
use parry3d::query::epa::{Counts, Polytope, Rooms};
use std::panic::{self, AssertUnwindSafe};

pub type Answer = answer::Answer<Counts>;

/// Panics are answers here, so nothing is to be printed about them.
pub fn silence_panics() {
    panic::set_hook(Box::new(|_| {}));
}

/// Runs records one after another over the same stores.
pub struct Channel<P> {
    polytope: P,
    reached: bool,
}

impl<P: Polytope> Channel<P> {
    pub fn new(rooms: Rooms) -> Self {
        let mut polytope = P::default();
        polytope.lend(rooms);
        Self {
            polytope,
            reached: false,
        }
    }

    pub fn answer(&mut self, record: &Record) -> Answer {
        // Every run starts by emptying the stores, so a panic leaves nothing behind.
        let run = AssertUnwindSafe(|| self.run(record));
        match panic::catch_unwind(run) {
            Ok(answer) => answer,
            Err(cause) if cause.is::<NoRoom>() => Answer::NoRoom(self.polytope.counts()),
            Err(_) => Answer::Panic,
        }
    }

    /// The polytope as the last record left it, if that record reached it.
    pub fn polytope(&self) -> Option<&P> {
        self.reached.then_some(&self.polytope)
    }

    fn run(&mut self, record: &Record) -> Answer {
        self.reached = false;
        let first = Published::from(record.first);
        let second = Published::from(record.second);
        let (g1, g2) = (first.support_map(), second.support_map());
        published::answer(record, g1, g2, |pos12, simplex| {
            self.reached = true;
            let found = self.polytope.run(pos12, g1, g2, simplex);
            (found, self.polytope.counts())
        })
    }
}
