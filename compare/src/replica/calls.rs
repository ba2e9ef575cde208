//! Lists of calls as bytes and their answers as bytes, as docs/CALLS.md lays
//! them out, and the answers in lines.

use std::fmt::Write;

use crate::interface::header::Ran;
use crate::replica::call::Call;
use crate::replica::panel::{Answer, Panel};
use crate::replica::printout::MOST_BYTES;
use crate::replica::refusal::{ACCEPTED, NO_ROOM};
use crate::replica::request::*;
use crate::replica::wire::{self, Message, Parsed};

pub const CALLS_AT: usize = 2;
pub const CALL_SIZE: usize = 1 + wire::STRONG_LENGTH;
pub const ANSWER_SIZE: usize = HEAD_SIZE + wire::STRONG_LENGTH;

const HEAD_SIZE: usize = 8;

const MAKE: u8 = 1;
const UNDO: u8 = 2;
const CARRY_OUT: u8 = 3;
const ALL_DUE: u8 = 4;
const MESSAGE: u8 = 0;

/// How many whole calls stand in these bytes.
pub fn count(bytes: &[u8]) -> usize {
    bytes.len().saturating_sub(CALLS_AT) / CALL_SIZE
}

/// Runs the calls from fresh and puts their answers at the front of `out`,
/// all or none: how many were run, and that there is no room or else fresh's
/// refusal.
pub fn run(bytes: &[u8], out: &mut [u8]) -> Ran {
    let ran = count(bytes);
    if out.len() / ANSWER_SIZE < ran {
        return Ran { refusal: NO_ROOM, ran: 0 };
    }
    let (refusal, mut panel) = fresh_told(bytes);
    for (call, answer) in each(bytes).zip(out.chunks_exact_mut(ANSWER_SIZE)) {
        put_answer(&carry(&mut panel, &decode(call)), answer);
    }
    Ran { refusal, ran: ran as u64 }
}

/// The panel that the first two bytes ask for.
pub fn fresh(bytes: &[u8]) -> Panel {
    fresh_told(bytes).1
}

fn fresh_told(bytes: &[u8]) -> (u8, Panel) {
    let byte = |at: usize| bytes.get(at).copied().unwrap_or(0);
    Panel::fresh(byte(0), byte(1))
}

/// The bytes of each call.
pub fn each(bytes: &[u8]) -> impl Iterator<Item = &[u8]> {
    bytes.get(CALLS_AT..).unwrap_or(&[]).chunks_exact(CALL_SIZE)
}

/// The messages of a printout's input as calls, each followed by all due steps.
pub fn of_messages(input: &[u8]) -> Vec<Call> {
    let input = &input[..input.len().min(MOST_BYTES)];
    let mut calls = Vec::new();
    let mut at = CALLS_AT;
    while let Parsed::Message(message, taken) = wire::parse(input, at) {
        let call = match message {
            Message::Request(request) => Call::Hear(request),
            Message::Settlement(number) => Call::Settle(number),
        };
        calls.extend([call, Call::RunDue]);
        at += taken;
    }
    calls
}

/// Gives a panel a call that changes it.
pub fn carry(panel: &mut Panel, call: &Call) -> Answer {
    match call {
        Call::Make(operation, strong, clock) => panel.make(*operation, *strong, *clock),
        Call::Hear(request) => panel.hear(request),
        Call::Settle(number) => panel.settle(*number),
        Call::Undo => panel.undo(),
        Call::CarryOut => panel.carry_out(),
        Call::RunDue => Answer { response: panel.run_due() as u32, ..Answer::default() },
        Call::Register(_) | Call::RequestAt(_) => unreachable!("no bytes stand for it"),
    }
}

/// The step that is due on a panel that owes one.
pub fn due_step(panel: &Panel) -> Call {
    if panel.to_be_rolled_back_reversed().is_empty() {
        Call::CarryOut
    } else {
        Call::Undo
    }
}

/// The call that these bytes stand for.
pub fn decode(call: &[u8]) -> Call {
    match call[0] {
        UNDO => return Call::Undo,
        CARRY_OUT => return Call::CarryOut,
        ALL_DUE => return Call::RunDue,
        _ => {}
    }
    let message = match wire::parse(&call[1..], 0) {
        Parsed::Message(message, _) => message,
        Parsed::End | Parsed::Refused(_) => Message::Request(Request::default()),
    };
    match message {
        _ if call[0] == MAKE => {
            let asked = request_in(&message);
            Call::Make(asked.operation, asked.strong, asked.clock)
        }
        Message::Request(request) => Call::Hear(request),
        Message::Settlement(number) => Call::Settle(number),
    }
}

/// The request of a message; a settlement has zeros but for its number.
fn request_in(message: &Message) -> Request {
    match message {
        Message::Request(request) => *request,
        Message::Settlement(number) => Request { number: *number, ..Request::default() },
    }
}

/// Adds a call to a list. False where no bytes stand for it: the showing
/// calls, and a weak request with a context.
pub fn append(bytes: &mut Vec<u8>, call: &Call) -> bool {
    let (tag, message) = match call {
        Call::Make(operation, strong, clock) => {
            let asked =
                Request { operation: *operation, strong: *strong, clock: *clock, ..Request::default() };
            (MAKE, Some(Message::Request(asked)))
        }
        Call::Hear(request) => (MESSAGE, Some(Message::Request(*request))),
        Call::Settle(number) => (MESSAGE, Some(Message::Settlement(*number))),
        Call::Undo => (UNDO, None),
        Call::CarryOut => (CARRY_OUT, None),
        Call::RunDue => (ALL_DUE, None),
        Call::Register(_) | Call::RequestAt(_) => return false,
    };
    let mut part = [0; CALL_SIZE];
    part[0] = tag;
    if let Some(message) = message {
        if wire::write(&message, &mut part[1..]).0 != 0 {
            return false;
        }
    }
    bytes.extend_from_slice(&part);
    true
}

/// A list of calls and the panel that they lead to.
pub struct List {
    panel: Panel,
    bytes: Vec<u8>,
}

impl List {
    pub fn new(panels: u8, own: u8) -> List {
        List { panel: Panel::fresh(panels, own).1, bytes: vec![panels, own] }
    }

    /// Adds a call, unless no bytes stand for it.
    pub fn add(&mut self, call: &Call) {
        if append(&mut self.bytes, call) {
            carry(&mut self.panel, call);
        }
    }

    /// Adds single steps until the panel is idle.
    pub fn add_due_steps(&mut self) {
        while self.panel.owed() > 0 {
            self.add(&due_step(&self.panel));
        }
    }

    pub fn panel(&self) -> &Panel {
        &self.panel
    }

    pub fn bytes(&self) -> &[u8] {
        &self.bytes
    }

    pub fn into_bytes(self) -> Vec<u8> {
        self.bytes
    }
}

/// The answers as the program `cases` prints them: a line for each with
/// refusal, mark, panel, event and response, and behind them the bytes of the
/// request that an accepted make spreads.
pub fn printed(bytes: &[u8]) -> Vec<u8> {
    let mut panel = fresh(bytes);
    let mut text = String::new();
    for call in each(bytes).map(decode) {
        let answer = carry(&mut panel, &call);
        let Answer { refusal, mark, number, response, .. } = answer;
        let _ = write!(text, "{refusal} {mark} {} {} {response}", number.panel.0, number.event.0);
        if matches!(call, Call::Make(..)) && refusal == ACCEPTED {
            print_message(&mut text, &Message::Request(answer.request));
        }
        text.push('\n');
    }
    text.into_bytes()
}

fn print_message(text: &mut String, message: &Message) {
    let mut part = [0; wire::STRONG_LENGTH];
    let (_, length) = wire::write(message, &mut part);
    for byte in &part[..length] {
        let _ = write!(text, " {byte}");
    }
}

/// Whether these bytes answer a make and its request has another clock than
/// the call asked for.
pub fn is_raised(call: &[u8], answer: &[u8]) -> bool {
    match decode(call) {
        Call::Make(_, _, asked) if answer[0] == ACCEPTED => answer_in(answer).0.request.clock != asked,
        _ => false,
    }
}

fn put_answer(answer: &Answer, out: &mut [u8]) {
    out[0] = answer.refusal;
    out[1] = answer.mark;
    out[2] = answer.number.panel.0;
    out[3] = answer.number.event.0;
    out[4..HEAD_SIZE].copy_from_slice(&answer.response.to_le_bytes());
    out[HEAD_SIZE..].fill(0);
    wire::write(&Message::Request(answer.request), &mut out[HEAD_SIZE..]);
}

/// The answer that these bytes stand for, and whether they are its bytes.
pub fn answer_in(bytes: &[u8]) -> (Answer, bool) {
    let request = match wire::parse(&bytes[HEAD_SIZE..], 0) {
        Parsed::Message(Message::Request(request), _) => request,
        _ => Request::default(),
    };
    let answer = Answer {
        refusal: bytes[0],
        mark: bytes[1],
        number: Number::new(bytes[2], bytes[3]),
        response: u32::from_le_bytes(bytes[4..HEAD_SIZE].try_into().expect("four bytes")),
        request,
    };
    let mut back = [0; ANSWER_SIZE];
    put_answer(&answer, &mut back);
    (answer, back == bytes)
}
