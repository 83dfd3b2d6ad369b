//! The port's program `calls`, open for calls: they go to it block by block, and what it answers is held against what is expected.
//! Neither waits for the other, so that an answer that is too short or too long is a difference and no standstill.

use crate::words::{Put, Words};
use std::fs;
use std::io::{self, Read, Write};
use std::process::{exit, Child, ChildStdin, ChildStdout, Command, Stdio};
use std::sync::mpsc::{sync_channel, Receiver, SyncSender};
use std::thread::{self, JoinHandle};

/// Words in a block of calls.
const BLOCK: usize = 32_768;
/// A block is sent early where so many words are expected of it.
const ENOUGH: usize = 1 << 19;
/// So many blocks may wait.
const WAITING: usize = 8;

/// The first difference ends the run.
pub type Compared = Result<(), String>;

/// The kind of a call, and the family of its numbers.
#[derive(Copy, Clone)]
pub struct Label {
    pub name: &'static str,
    pub family: &'static str,
}

/// Where a call begins in its block, and where its answer ends.
struct Asked {
    label: Label,
    call: usize,
    answered: usize,
}

/// Calls of one block, and what they must answer.
#[derive(Default)]
struct Batch {
    calls: Vec<u32>,
    answers: Vec<u32>,
    asked: Vec<Asked>,
}

pub struct Port {
    batch: Batch,
    blocks: SyncSender<Vec<u8>>,
    expected: SyncSender<Batch>,
    writer: JoinHandle<()>,
    reader: JoinHandle<Compared>,
    child: Child,
}

/// What the kit built, for x86-64.
const BUILT: &str = "target/bin/calls";

/// The program that CALLS names, or the one that the kit built. That it is there is seen here: tools/run, which is there, would start.
fn program() -> io::Result<Command> {
    if let Some(program) = std::env::var_os("CALLS") {
        return Ok(Command::new(program));
    }
    fs::metadata(BUILT)?;
    let mut command = Command::new("tools/run");
    command.arg(BUILT);
    Ok(command)
}

/// Where the program does not start nothing can be compared: status 3.
pub fn start() -> (Child, ChildStdin, ChildStdout) {
    let spawn = |mut command: Command| {
        let piped = command.stdin(Stdio::piped()).stdout(Stdio::piped());
        piped.spawn()
    };
    let mut child = program().and_then(spawn).unwrap_or_else(|error| {
        eprintln!("calls_driver: {BUILT}, which `tools/built calls` builds, or the program that CALLS names does not start: {error}");
        exit(3)
    });
    let input = child.stdin.take().expect("it has an input");
    let output = child.stdout.take().expect("it has an output");
    (child, input, output)
}

/// The words as bytes, and zeros up to the block's end.
pub fn block(calls: &[u32]) -> Vec<u8> {
    let mut bytes = vec![0; 4 * BLOCK];
    for (place, word) in bytes.chunks_exact_mut(4).zip(calls) {
        place.copy_from_slice(&word.to_le_bytes());
    }
    bytes
}

impl Port {
    pub fn open() -> Self {
        let (child, input, output) = start();
        let (blocks, to_write) = sync_channel(WAITING);
        let (expected, to_read) = sync_channel(WAITING);
        Self {
            batch: Batch::default(),
            blocks,
            expected,
            writer: thread::spawn(move || write_all(input, to_write)),
            reader: thread::spawn(move || read_all(output, to_read)),
            child,
        }
    }

    /// One call, and what it must answer.
    pub fn ask(
        &mut self,
        label: Label,
        function: u32,
        arguments: &impl Put,
        answer: &impl Put,
    ) -> Compared {
        let batch = &mut self.batch;
        let mut call = batch.calls.len();
        batch.put_call(function, arguments);
        if batch.calls.len() > BLOCK || batch.answers.len() > ENOUGH {
            let last = batch.calls.split_off(call);
            self.send()?;
            self.batch.calls = last;
            call = 0;
        }
        self.batch.put_answer(label, call, answer);
        Ok(())
    }

    /// A failure to send is of a reader that has ended: `close` says why.
    fn send(&mut self) -> Compared {
        let batch = std::mem::take(&mut self.batch);
        let ended = |_| "the program's answers ended".to_string();
        let sent = self.blocks.send(block(&batch.calls)).map_err(|_| ());
        sent.and(self.expected.send(batch).map_err(|_| ()))
            .map_err(ended)
    }

    /// The first difference, if there is one.
    pub fn close(mut self) -> Compared {
        let sent = self.send();
        drop((self.blocks, self.expected));
        let read = self.reader.join().expect("the reader doesn't panic");
        let _ = self.child.kill();
        self.writer.join().expect("the writer doesn't panic");
        self.child.wait().expect("the program ends");
        read.and(sent)
    }
}

impl Batch {
    fn put_call(&mut self, function: u32, arguments: &impl Put) {
        let start = self.calls.len();
        self.calls.extend([0, function]);
        arguments.put(&mut Words {
            words: &mut self.calls,
            one_nan: false,
        });
        self.calls[start] = (self.calls.len() - start - 1) as u32;
    }

    fn put_answer(&mut self, label: Label, call: usize, answer: &impl Put) {
        answer.put(&mut Words {
            words: &mut self.answers,
            one_nan: true,
        });
        let answered = self.answers.len();
        self.asked.push(Asked {
            label,
            call,
            answered,
        });
    }

    /// The first call whose answer differs at this word.
    fn difference(&self, got: &[u32]) -> String {
        let same = self.answers.iter().zip(got).take_while(|(a, b)| a == b);
        let place = same.count();
        let asked = self.asked.partition_point(|asked| asked.answered <= place);
        let from = asked.checked_sub(1).map_or(0, |i| self.asked[i].answered);
        let Some(Asked {
            label,
            call,
            answered,
        }) = self.asked.get(asked)
        else {
            return "the program answers more than it was asked".to_string();
        };
        let end = call + 1 + self.calls[*call] as usize;
        format!(
            "{} ({}), call {:X?}\nRust {:X?}\nport {:X?}\ndiffers at word {}",
            label.name,
            label.family,
            &self.calls[*call..end],
            &self.answers[from..*answered],
            &got[from..got.len().min(*answered)],
            place - from
        )
    }
}

/// Where the program has ended the reader tells.
fn write_all(mut input: ChildStdin, blocks: Receiver<Vec<u8>>) {
    for block in blocks {
        if input.write_all(&block).is_err() {
            return;
        }
    }
}

fn read_all(mut output: ChildStdout, batches: Receiver<Batch>) -> Compared {
    for batch in batches {
        let got = read_words(&mut output, batch.answers.len())?;
        if got != batch.answers {
            return Err(batch.difference(&got));
        }
    }
    match read_words(&mut output, 1)?[..] {
        [] => Ok(()),
        _ => Err("the program answers more than it was asked".to_string()),
    }
}

/// So many words, or fewer where the output ends.
pub fn read_words(output: &mut ChildStdout, count: usize) -> Result<Vec<u32>, String> {
    let mut bytes = Vec::with_capacity(4 * count);
    let read = output.take(4 * count as u64).read_to_end(&mut bytes);
    read.map_err(|error| format!("the program's output: {error}"))?;
    let word = |place: &[u8]| u32::from_le_bytes(place.try_into().expect("four bytes"));
    Ok(bytes.chunks_exact(4).map(word).collect())
}
