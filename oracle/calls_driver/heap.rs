//! The port's heap against the toolchain's own `BinaryHeap`, over random runs of push, pop and peek: both lists of the port after each
//! operation, the entries place by place as `BinaryHeap::as_slice` has them, zeros in the places that were used and are free, and what the
//! lists held before in the places that were never used. After each run every call is made with counts that are none (0, full, above
//! the room), and must answer as said and write nothing.

use crate::answers::Answer;
use crate::check::Check;
use crate::functions::{HEAP_PEEK, HEAP_POP, HEAP_PUSH};
use crate::port::Compared;
use crate::random::Random;
use crate::words::{Lists, Put};
use std::cmp::Ordering;
use std::collections::BinaryHeap;

/// A face and its key, ordered by the key alone: neither less nor greater is equal, so a NaN is equal to everything.
#[derive(Clone, Copy, Debug, Default)]
struct Queued {
    face: usize,
    key: f32,
}

impl Ord for Queued {
    fn cmp(&self, other: &Self) -> Ordering {
        match (self.key < other.key, self.key > other.key) {
            (true, _) => Ordering::Less,
            (_, true) => Ordering::Greater,
            _ => Ordering::Equal,
        }
    }
}

impl PartialOrd for Queued {
    fn partial_cmp(&self, other: &Self) -> Option<Ordering> {
        Some(self.cmp(other))
    }
}

impl PartialEq for Queued {
    fn eq(&self, other: &Self) -> bool {
        self.cmp(other) == Ordering::Equal
    }
}

impl Eq for Queued {}

/// How the keys of a run are drawn.
#[derive(Clone, Copy)]
enum Keys {
    Equal,
    Few,
    Zeros,
    Limits,
    HalfNan,
    Falling,
    AnyBits,
    Mixed,
}

const KEYS: [Keys; 8] = [
    Keys::Equal,
    Keys::Few,
    Keys::Zeros,
    Keys::Limits,
    Keys::HalfNan,
    Keys::Falling,
    Keys::AnyBits,
    Keys::Mixed,
];

fn draw(keys: Keys, random: &mut Random) -> f32 {
    match keys {
        Keys::Equal => -0.5,
        Keys::Few => -(random.below(4) as f32),
        Keys::Zeros => random.pick(&[0.0, -0.0, f32::NAN, -f32::from_bits(1)]),
        Keys::Limits => random.pick(&[
            f32::INFINITY,
            f32::NEG_INFINITY,
            f32::MAX,
            f32::MIN,
            f32::NAN,
            0.0,
        ]),
        Keys::HalfNan => {
            let key = -(random.below(8) as f32);
            random.pick(&[f32::NAN, key])
        }
        Keys::Falling => -(random.below(1 << 20) as f32) * 0.001,
        Keys::AnyBits => random.any_float(),
        Keys::Mixed => {
            let other = KEYS[random.below(KEYS.len() - 1)];
            draw(other, random)
        }
    }
}

/// The toolchain's heap, and what the lent lists hold with it.
struct Model {
    heap: BinaryHeap<Queued>,
    faces: Vec<usize>,
    keys: Vec<f32>,
    /// The places of the shorter list.
    room: usize,
    /// How many places were ever used.
    used: usize,
}

impl Model {
    fn new(random: &mut Random) -> Self {
        let room = match random.below(512) {
            0 => random.below(2000),
            1..=56 => random.below(200),
            57..=184 => random.below(5),
            _ => random.below(33),
        };
        let more = if random.chance(50) {
            random.below(9)
        } else {
            0
        };
        let [a, b] = random.pick(&[[room + more, room], [room, room + more]]);
        Self {
            heap: BinaryHeap::new(),
            faces: (0..a).map(|_| random.bits() as usize).collect(),
            keys: (0..b).map(|_| random.any_float()).collect(),
            room,
            used: 0,
        }
    }

    /// The lists after an operation.
    fn write(&mut self) {
        let entries = self.heap.as_slice();
        self.used = self.used.max(entries.len());
        for i in 0..self.used {
            let entry = entries.get(i).copied().unwrap_or_default();
            self.faces[i] = entry.face;
            self.keys[i] = entry.key;
        }
    }

    /// The arguments of a call as the lists are now.
    fn arguments(&self, count: usize, entry: Queued) -> impl Put {
        let lists = Lists::after(5).and(&self.faces).and(&self.keys);
        (count, entry.face, entry.key, lists)
    }
}

/// Document 01's number, and the count.
fn counted(number: usize, count: usize) -> Answer {
    Answer {
        number,
        ..Answer::from(count)
    }
}

/// What a peek or a pop finds: an entry, or none, and the count after it.
fn taken(entry: Option<Queued>, count: usize) -> Answer {
    match entry {
        Some(Queued { face, key }) => Answer {
            kind: 1,
            place: face,
            x: key,
            ..Answer::from(count)
        },
        None => Answer::from(count),
    }
}

/// A call, and what it must answer and leave.
struct Call {
    name: &'static str,
    function: u32,
    count: usize,
    entry: Queued,
}

impl Call {
    fn push(name: &'static str, count: usize, entry: Queued) -> Self {
        Self {
            name,
            function: HEAP_PUSH,
            count,
            entry,
        }
    }

    fn of(name: &'static str, function: u32, count: usize) -> Self {
        Self {
            name,
            function,
            count,
            entry: Queued::default(),
        }
    }
}

/// The call on the lists as they are; then the model does it, and says what was to be answered.
fn compare(
    check: &mut Check,
    model: &mut Model,
    call: Call,
    operate: impl FnOnce(&mut Model) -> Answer,
) -> Compared {
    let arguments = model.arguments(call.count, call.entry);
    let answer = operate(model);
    model.write();
    let after = (answer, model.faces.clone(), model.keys.clone());
    check.ask(
        call.name,
        call.function,
        &arguments,
        answer.number == 3,
        &after,
    )
}

/// Each call at counts that are none of the run's: none may write.
fn compare_odd_counts(check: &mut Check, model: &mut Model, random: &mut Random) -> Compared {
    let room = model.room;
    let more = [random.below(9), random.bits() as usize >> 1];
    let above = room + 1 + random.pick(&more);
    let entry = Queued { face: 7, key: 1.0 };
    for count in [room, above] {
        let push = Call::push("push at an odd count", count, entry);
        compare(check, model, push, |_| counted(3, count))?;
    }
    for (name, function) in [
        ("peek at an odd count", HEAP_PEEK),
        ("pop at an odd count", HEAP_POP),
    ] {
        for (count, answer) in [(above, counted(3, above)), (0, counted(0, 0))] {
            compare(check, model, Call::of(name, function, count), |_| answer)?;
        }
    }
    Ok(())
}

fn compare_push(check: &mut Check, model: &mut Model, entry: Queued) -> Compared {
    let count = model.heap.len();
    if count == model.room {
        let push = Call::push("push into a full store", count, entry);
        return compare(check, model, push, |_| counted(3, count));
    }
    compare(check, model, Call::push("push", count, entry), |model| {
        model.heap.push(entry);
        counted(0, count + 1)
    })
}

/// One operation: in `up` of fifteen a push, of the others a pop, and now and then a peek.
fn compare_operation(
    check: &mut Check,
    model: &mut Model,
    keys: Keys,
    up: usize,
    random: &mut Random,
) -> Compared {
    let count = model.heap.len();
    let roll = random.below(16);
    if roll == 15 {
        let peek = Call::of("peek", HEAP_PEEK, count);
        return compare(check, model, peek, |m| taken(m.heap.peek().copied(), count));
    }
    if roll < up {
        let face = random.below(1 << 20);
        let key = draw(keys, random);
        return compare_push(check, model, Queued { face, key });
    }
    let name = if count == 0 {
        "pop of an empty heap"
    } else {
        "pop"
    };
    compare(check, model, Call::of(name, HEAP_POP, count), |m| {
        let entry = m.heap.pop();
        taken(entry, m.heap.len())
    })
}

fn compare_run(check: &mut Check, most: u64, random: &mut Random) -> Result<u64, String> {
    let keys = random.pick(&KEYS);
    let mut model = Model::new(random);
    let length = most.min(1 + random.below(4 * model.room + 8) as u64);
    let mut up = 12;
    for step in 0..length {
        // the runs rise and fall, so that both ends of the store are met
        if step % 64 == 63 {
            up = 3 + random.below(10);
        }
        compare_operation(check, &mut model, keys, up, random)?;
    }
    compare_odd_counts(check, &mut model, random)?;
    Ok(length)
}

/// So many operations, and odd counts after each run.
pub fn compare_runs(check: &mut Check, operations: u64, seed: u64) -> Compared {
    let mut random = Random::new(seed);
    let mut done = 0;
    while done < operations {
        done += compare_run(check, operations - done, &mut random)?;
    }
    Ok(())
}
