//! A panel of a seeded shop that is followed: what it is called with, and what
//! is on the way to it.

use crate::drawing::random::Random;
use crate::replica::call::Call;
use crate::replica::calls;
use crate::replica::panel::{Answer, Panel};
use crate::replica::refusal::ACCEPTED;
use crate::replica::request::*;

pub struct Running {
    pub own: u8,
    pub makes: bool,
    /// Whether it does all due steps at once, which hides them.
    hides: bool,
    pub panel: Panel,
    pub held: NumberSet,
    pub calls: Vec<Call>,
    pub inbound: Vec<Request>,
    /// How many of the shop's settlements it did.
    pub settled: usize,
}

impl Running {
    pub fn new(panels: u8, own: u8, random: &mut Random) -> Running {
        Running {
            own,
            makes: random.percent(75),
            hides: random.percent(15),
            panel: Panel::fresh(panels, own).1,
            held: NumberSet::EMPTY,
            calls: Vec::new(),
            inbound: Vec::new(),
            settled: 0,
        }
    }

    /// Calls the panel; all due steps are called one by one where none is hidden.
    pub fn give(&mut self, call: Call) -> Answer {
        if call == Call::RunDue && !self.hides {
            while self.panel.owed() > 0 {
                self.give(calls::due_step(&self.panel));
            }
            return Answer::default();
        }
        let answer = calls::carry(&mut self.panel, &call);
        self.calls.push(call);
        if answer.refusal == ACCEPTED {
            match call {
                Call::Make(..) => self.held.insert(answer.request.number.slot()),
                Call::Hear(request) => self.held.insert(request.number.slot()),
                _ => {}
            }
        }
        answer
    }

    /// One of the requests held.
    pub fn any_held(&self, random: &mut Random) -> Option<Request> {
        let held = self.panel.accepted_requests();
        (held > 0).then(|| self.panel.request_at(1 + random.below(held)).request)
    }
}
