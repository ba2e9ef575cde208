//! Cases for two boards, whether they differ on one, and the least part of it
//! on which they still do.

use std::fmt::Write;

use crate::byte_test::fields;
use crate::interface::board::Board;
use crate::interface::header::{Message, Ran, Reading, Written};
use crate::replica::calls::{self, ANSWER_SIZE, CALLS_AT, CALL_SIZE};
use crate::replica::wire::{self, Parsed};

/// What the lent bytes hold beforehand, so that bytes left alone show.
const FILL: u8 = 0xa5;

#[derive(Clone, Copy, Debug, PartialEq, Eq)]
pub enum Function {
    Print,
    Run,
    Read,
    Write,
}

impl Function {
    const ALL: [Function; 4] = [Function::Print, Function::Run, Function::Read, Function::Write];

    fn name(self) -> &'static str {
        match self {
            Function::Print => "print",
            Function::Run => "run",
            Function::Read => "read",
            Function::Write => "write",
        }
    }
}

/// One call of one function: its bytes, which for the writer are the fields of a
/// message; the place in them that a message is read at; and how many bytes are
/// lent for the result.
#[derive(Clone, Debug, PartialEq, Eq)]
pub struct Case {
    pub function: Function,
    pub bytes: Vec<u8>,
    pub at: usize,
    pub room: usize,
}

/// A board's result with the lent bytes after it, the refusal beside it and the
/// message that was read.
#[derive(Default, PartialEq, Eq)]
pub struct Outcome {
    pub refusal: u8,
    pub result: usize,
    pub message: Message,
    pub out: Vec<u8>,
}

impl Outcome {
    /// Runs a case; the bytes of an earlier outcome are used again.
    pub fn take(&mut self, board: &dyn Board, case: &Case) {
        self.out.clear();
        self.out.resize(case.room, FILL);
        let out = &mut self.out[..];
        self.message = Message::default();
        (self.refusal, self.result) = match case.function {
            Function::Print => (0, board.print(&case.bytes, out)),
            Function::Run => {
                let Ran { refusal, ran } = board.run(&case.bytes, out);
                (refusal, ran as usize)
            }
            Function::Read => {
                let Reading { refusal, taken, message } = board.read(&case.bytes, case.at);
                self.message = message;
                (refusal, taken as usize)
            }
            Function::Write => {
                let Written { refusal, bytes } = board.write(&fields::message(&case.bytes), out);
                (refusal, bytes as usize)
            }
        };
    }

    pub fn of(board: &dyn Board, case: &Case) -> Outcome {
        let mut outcome = Outcome::default();
        outcome.take(board, case);
        outcome
    }
}

pub fn differ(one: &dyn Board, other: &dyn Board, case: &Case) -> bool {
    Outcome::of(one, case) != Outcome::of(other, case)
}

impl Case {
    /// The bytes in front of the pieces, and the pieces that may be dropped:
    /// calls, messages or single bytes.
    fn pieces(&self) -> (Vec<u8>, Vec<Vec<u8>>) {
        let front = match self.function {
            Function::Print | Function::Run => CALLS_AT.min(self.bytes.len()),
            Function::Read => self.at.min(self.bytes.len()),
            Function::Write => 0,
        };
        let (front, rest) = self.bytes.split_at(front);
        let pieces = match self.function {
            Function::Run => rest.chunks(CALL_SIZE).map(<[u8]>::to_vec).collect(),
            Function::Print => messages(rest),
            Function::Read | Function::Write => rest.iter().map(|byte| vec![*byte]).collect(),
        };
        (front.to_vec(), pieces)
    }

    fn of_pieces(&self, front: &[u8], pieces: &[Vec<u8>]) -> Case {
        let mut bytes = front.to_vec();
        bytes.extend(pieces.iter().flatten());
        Case { bytes, ..self.clone() }
    }

    /// The least part found on which the boards still differ: runs of pieces
    /// are dropped, long ones first, as long as a difference is left.
    pub fn shrunk(&self, one: &dyn Board, other: &dyn Board) -> Case {
        let (front, mut pieces) = self.pieces();
        let mut length = pieces.len();
        while length > 0 {
            let before = pieces.len();
            let mut start = 0;
            while start < pieces.len() {
                let mut fewer = pieces.clone();
                fewer.drain(start..(start + length).min(pieces.len()));
                if differ(one, other, &self.of_pieces(&front, &fewer)) {
                    pieces = fewer;
                } else {
                    start += length;
                }
            }
            if length > 1 || pieces.len() == before {
                length /= 2;
            }
        }
        self.of_pieces(&front, &pieces)
    }

    /// The case and both outcomes in words.
    pub fn show(&self, names: [&str; 2], boards: [&dyn Board; 2]) -> String {
        let outcomes = boards.map(|board| Outcome::of(board, self));
        let mut text = String::new();
        let name = self.function.name();
        let _ = writeln!(text, "{name} of {} bytes, {} bytes lent", self.bytes.len(), self.room);
        match self.function {
            Function::Run => self.show_calls(&mut text, names, &outcomes),
            Function::Print => self.show_lines(&mut text, names, &outcomes),
            Function::Read | Function::Write => {
                let _ = writeln!(text, "bytes {:02x?} at {}", self.bytes, self.at);
                for (name, Outcome { refusal, result, message, out }) in names.iter().zip(&outcomes) {
                    let _ =
                        writeln!(text, "{name}: refusal {refusal}, {result} bytes {message:?} {out:02x?}");
                }
            }
        }
        text
    }

    fn show_calls(&self, text: &mut String, names: [&str; 2], outcomes: &[Outcome; 2]) {
        let _ = writeln!(text, "fresh {:?}", &self.bytes[..CALLS_AT.min(self.bytes.len())]);
        let [one, other] = outcomes;
        for (name, outcome) in names.iter().zip(outcomes) {
            let _ = writeln!(text, "{name}: refusal {}, {} calls run", outcome.refusal, outcome.result);
        }
        let answers = one.out.chunks_exact(ANSWER_SIZE).zip(other.out.chunks_exact(ANSWER_SIZE));
        for ((place, call), (first, second)) in calls::each(&self.bytes).enumerate().zip(answers) {
            let _ = writeln!(text, "{place}: {:?}", calls::decode(call));
            if first != second {
                for (name, bytes) in names.iter().zip([first, second]) {
                    let (answer, whole) = calls::answer_in(bytes);
                    let _ =
                        writeln!(text, "  {name}: {answer:?}{}", if whole { "" } else { " and other bytes" });
                }
                return;
            }
        }
        if (one.refusal, one.result) == (other.refusal, other.result) {
            let _ = writeln!(text, "the bytes behind the answers differ");
        }
    }

    fn show_lines(&self, text: &mut String, names: [&str; 2], outcomes: &[Outcome; 2]) {
        let _ = writeln!(text, "shop {:?}", &self.bytes[..CALLS_AT.min(self.bytes.len())]);
        for message in messages(&self.bytes[CALLS_AT.min(self.bytes.len())..]) {
            let _ = writeln!(text, "{:?}", wire::parse(&message, 0));
        }
        let texts = outcomes.each_ref().map(|outcome| {
            String::from_utf8_lossy(&outcome.out[..outcome.result.min(outcome.out.len())]).into_owned()
        });
        for (name, printed) in names.iter().zip(&texts) {
            let _ = writeln!(text, "{name}: {} bytes\n{printed}", printed.len());
        }
    }

    /// A stored case: a line of words, and the bytes behind it.
    pub fn store(&self) -> Vec<u8> {
        let name = self.function.name();
        let mut stored = format!("{name} room {} at {}\n", self.room, self.at).into_bytes();
        stored.extend_from_slice(&self.bytes);
        stored
    }

    pub fn stored(stored: &[u8]) -> Option<Case> {
        let end = stored.iter().position(|byte| *byte == b'\n')?;
        let line = std::str::from_utf8(&stored[..end]).ok()?;
        let words: Vec<&str> = line.split(' ').collect();
        let [name, "room", room, "at", at] = words[..] else { return None };
        Some(Case {
            function: Function::ALL.into_iter().find(|function| function.name() == name)?,
            bytes: stored[end + 1..].to_vec(),
            at: at.parse().ok()?,
            room: room.parse().ok()?,
        })
    }
}

/// The messages of a run of bytes, and what follows the last that can be read.
fn messages(bytes: &[u8]) -> Vec<Vec<u8>> {
    let mut pieces = Vec::new();
    let mut at = 0;
    while let Parsed::Message(_, taken) = wire::parse(bytes, at) {
        pieces.push(bytes[at..at + taken].to_vec());
        at += taken;
    }
    if at < bytes.len() {
        pieces.push(bytes[at..].to_vec());
    }
    pieces
}
