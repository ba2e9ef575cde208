//! The shift of examples/panel/panel.c on this crate's panels: two panels of one
//! shop, a bus of bytes between them, and the lines that the example prints.

use std::fmt::Write;

use crate::replica::panel::{Panel, MARK_NONE};
use crate::replica::refusal::*;
use crate::replica::request::*;
use crate::replica::wire::append;
use crate::replica::wire::{self, Message, Parsed};

const PANELS_OF_THE_SHOP: u8 = 2;
const DECK: u8 = 0;
const TRAYS: u8 = 4;
const OUT: u8 = 5;

const MARKS: [&str; 4] = ["unawaited", "weak", "tentative", "stable"];

struct Pair {
    panels: Vec<Panel>,
    heard: Vec<usize>,
    bus: Vec<u8>,
    text: String,
}

/// The words of document 01 for what the example meets.
fn word(refusal: u8) -> &'static str {
    match refusal {
        ACCEPTED => "accepted",
        BAD_OPERATION => "bad operation",
        OWN_ECHO => "own echo",
        SETTLED_ALREADY => "settled already",
        _ => unreachable!("the example does not meet it"),
    }
}

fn told(number: Number) -> String {
    format!("{}/{}", number.panel.0, number.event.0)
}

impl Pair {
    fn line(&mut self, line: String) {
        let _ = writeln!(self.text, "{line}");
    }

    fn reply(&mut self, who: usize, number: Number, response: u32, mark: u8) {
        if mark != MARK_NONE {
            let mark = MARKS[mark as usize];
            self.line(format!("panel {who}: {mark} reply to {}: {response}", told(number)));
        }
    }

    fn make(&mut self, who: usize, operation: Operation, strong: bool, clock: u32) {
        let answer = self.panels[who].make(operation, strong, Clock(clock));
        if answer.refusal != ACCEPTED {
            return self.line(format!("panel {who} cannot make it: {}", word(answer.refusal)));
        }
        let strength = if strong { "strong" } else { "weak" };
        self.line(format!("panel {who} makes {}, {strength}", told(answer.request.number)));
        append(&mut self.bus, &Message::Request(answer.request));
    }

    fn settle(&mut self, who: usize, number: Number) {
        let answer = self.panels[who].settle(number);
        self.line(format!("panel {who} settles {}: {}", told(number), word(answer.refusal)));
        if answer.refusal == ACCEPTED {
            self.reply(who, number, answer.response, answer.mark);
            append(&mut self.bus, &Message::Settlement(number));
        }
    }

    fn listen(&mut self, who: usize) {
        while let Parsed::Message(message, taken) = wire::parse(&self.bus, self.heard[who]) {
            self.heard[who] += taken;
            let answer = match message {
                Message::Request(request) => self.panels[who].hear(&request),
                Message::Settlement(number) => self.panels[who].settle(number),
            };
            let (about, refusal) = (told(message.number()), word(answer.refusal));
            self.line(format!("panel {who} receives {taken} bytes about {about}: {refusal}"));
            self.reply(who, message.number(), answer.response, answer.mark);
        }
    }

    fn work(&mut self, who: usize) {
        let mut replies = Vec::new();
        let (undone, executed) =
            self.panels[who].run_due_telling(|number, response, mark| replies.push((number, response, mark)));
        self.line(format!("panel {who}: {undone} undone, {executed} executed"));
        for (number, response, mark) in replies {
            self.reply(who, number, response, mark);
        }
    }

    fn order(&mut self, who: usize) {
        let panel = &self.panels[who];
        let (settled, held) = (panel.committed().len(), panel.accepted_requests());
        let numbers: String =
            (1..=held).map(|place| format!(" {}", told(panel.request_at(place).request.number))).collect();
        self.line(format!("panel {who}, {settled} of {held} settled:{numbers}"));
    }

    fn registers(&mut self) {
        let [one, other] = [0, 1].map(|who| *self.panels[who].registers());
        for r in (0..REGISTERS).filter(|r| one[*r] != 0 || other[*r] != 0) {
            self.line(format!("register {r}: {} and {}", one[r], other[r]));
        }
        self.line(format!("the registers are {}", if one == other { "equal" } else { "different" }));
    }

    fn both(&mut self, act: fn(&mut Pair, usize)) {
        (0..PANELS_OF_THE_SHOP as usize).for_each(|who| act(self, who));
    }
}

/// What the example prints.
pub fn printed() -> String {
    let panels = (0..PANELS_OF_THE_SHOP).map(|own| Panel::fresh(PANELS_OF_THE_SHOP, own).1).collect();
    let mut pair = Pair { panels, heard: vec![0; 2], bus: Vec::new(), text: String::new() };
    pair.make(0, Operation::new(ADD, TRAYS, 0, 6), false, 10);
    pair.make(1, Operation::new(CLAIM, DECK, 0, 2), true, 12);
    pair.make(0, Operation::new(CLAIM, DECK, 0, 1), true, 11);
    pair.both(Pair::work);
    pair.both(Pair::listen);
    pair.both(Pair::work);
    pair.settle(1, Number::new(1, 1));
    pair.make(1, Operation::new(MOVE, TRAYS, OUT, 2), false, 13);
    pair.both(Pair::listen);
    pair.both(Pair::work);
    pair.settle(0, Number::new(0, 2));
    pair.both(Pair::listen);
    pair.both(Pair::work);
    pair.settle(1, Number::new(1, 1));
    pair.make(0, Operation::new(CLAIM, DECK, 0, 0), true, 14);
    pair.both(Pair::order);
    pair.registers();
    pair.text
}
