//! A panel with the calls of include/mizzencord.h, and this crate's panel
//! behind them.

use crate::interface::header::*;
use crate::replica::panel;
use crate::replica::refusal::ACCEPTED;
use crate::replica::request::Clock;
use crate::replica::wire::{self, Message, Parsed};

pub trait Component {
    fn fresh(&mut self, panels: u8, own: u8) -> u8;
    fn invoke(&mut self, invocation: Invocation) -> Answer;
    fn deliver(&mut self, request: Request) -> Answer;
    fn commit(&mut self, number: Number) -> Answer;
    fn receive(&mut self, bytes: &[u8], at: usize) -> Receipt;
    fn undo(&mut self) -> Answer;
    fn execute(&mut self) -> Answer;
    fn run_due(&mut self) -> Due;

    fn register(&self, k: u8) -> Value;
    fn requests(&self) -> usize;
    fn committed(&self) -> usize;
    fn commits(&self) -> u32;
    fn undos(&self) -> u32;
    fn executions(&self) -> u32;
    fn owed(&self) -> usize;
    fn at_place(&self, place: usize) -> Placed;
    fn panels(&self) -> u8;
    fn own(&self) -> u8;
    fn made(&self) -> u8;
    fn request_status(&self, number: Number) -> Status;
}

/// The panel of this crate.
#[derive(Clone)]
pub struct OwnPanel(panel::Panel);

impl OwnPanel {
    /// The only panel of a shop of one.
    pub fn new() -> OwnPanel {
        OwnPanel(panel::Panel::fresh(1, 0).1)
    }

    pub fn panel(&self) -> &panel::Panel {
        &self.0
    }
}

impl Default for OwnPanel {
    fn default() -> OwnPanel {
        OwnPanel::new()
    }
}

#[inline]
fn told(answer: panel::Answer) -> Answer {
    let panel::Answer { refusal, request, number, response, mark } = answer;
    Answer { request: (&request).into(), response, number: number.into(), refusal, mark }
}

/// An answer to which nothing is spread.
#[inline]
fn reply(answer: panel::Answer) -> Reply {
    let panel::Answer { refusal, number, response, mark, .. } = answer;
    Reply { response, number: number.into(), mark, refusal }
}

impl Component for OwnPanel {
    fn fresh(&mut self, panels: u8, own: u8) -> u8 {
        let (refusal, panel) = panel::Panel::fresh(panels, own);
        self.0 = panel;
        refusal
    }

    fn invoke(&mut self, invocation: Invocation) -> Answer {
        let Invocation { asked, clock } = invocation;
        told(self.0.make(asked.operation(), asked.strong != 0, Clock(clock)))
    }

    fn deliver(&mut self, request: Request) -> Answer {
        told(self.0.hear(&(&request).into()))
    }

    fn commit(&mut self, number: Number) -> Answer {
        told(self.0.settle(number.into()))
    }

    fn receive(&mut self, bytes: &[u8], at: usize) -> Receipt {
        let (message, taken) = match wire::parse(bytes, at) {
            Parsed::Message(message, taken) => (message, taken as u32),
            Parsed::End => return Receipt::default(),
            Parsed::Refused(refusal) => {
                let reply = Reply { refusal, ..Reply::default() };
                return Receipt { reply, ..Receipt::default() };
            }
        };
        let answer = match &message {
            Message::Request(request) => self.0.hear(request),
            Message::Settlement(number) => self.0.settle(*number),
        };
        let number = message.number().into();
        Receipt { reply: reply(answer), number, kind: message.kind(), taken }
    }

    fn undo(&mut self) -> Answer {
        told(self.0.undo())
    }

    fn execute(&mut self) -> Answer {
        told(self.0.carry_out())
    }

    fn run_due(&mut self) -> Due {
        let mut due = Due::default();
        let mut count = 0;
        (due.undos, due.executions) = self.0.run_due_telling(|number, response, mark| {
            if mark != panel::MARK_NONE {
                due.replies[count] = Reply { number: number.into(), response, mark, refusal: ACCEPTED };
                count += 1;
            }
        });
        due.count = count as u64;
        due
    }

    fn register(&self, k: u8) -> Value {
        let panel::RegisterAnswer { refusal, value } = self.0.register(k);
        Value { refusal, value }
    }

    fn requests(&self) -> usize {
        self.0.accepted_requests()
    }

    fn committed(&self) -> usize {
        self.0.committed().len()
    }

    fn commits(&self) -> u32 {
        self.0.accepted_settlements() as u32
    }

    fn undos(&self) -> u32 {
        self.0.undos_done()
    }

    fn executions(&self) -> u32 {
        self.0.carry_outs_done()
    }

    fn owed(&self) -> usize {
        self.0.owed()
    }

    fn at_place(&self, place: usize) -> Placed {
        let panel::RequestAnswer { refusal, request } = self.0.request_at(place);
        Placed { refusal, request: (&request).into() }
    }

    fn panels(&self) -> u8 {
        self.0.panels()
    }

    fn own(&self) -> u8 {
        self.0.own()
    }

    fn made(&self) -> u8 {
        self.0.made()
    }

    fn request_status(&self, number: Number) -> Status {
        let panel::StatusAnswer { refusal, place, settled, awaited, executed, response } =
            self.0.status(number.into());
        let [settled, awaited, executed] = [settled, awaited, executed].map(u8::from);
        Status { response, place: place as u32, settled, awaited, executed, refusal }
    }
}
