//! Shifts of several hundred requests, whose order changes near its front, near
//! its end and anywhere.

use crate::counting::changes::LONG;
use crate::drawing::random::Random;
use crate::drawing::shift::Shift;
use crate::replica::call::Call;
use crate::replica::request::*;
use crate::replica::wire::{append, Message};

/// How many calls of a long shift change its order.
const LATE_CALLS: usize = 12;

/// A shift whose requests are heard in clock order, several hundred of them,
/// before calls change the order near its front, near its end and anywhere.
struct LongShift {
    shift: Shift,
    heard: usize,
    calls: Vec<Call>,
}

impl LongShift {
    /// A panel of a shop of five can hear 256 requests, one of eight 448.
    fn new(seed: u64) -> LongShift {
        let mut random = Random::new(seed);
        let panels = random.one_of(&[5, 6, 7, 8, 8]);
        let own = random.below(panels as usize) as u8;
        let mut shift = Shift::of_shop(random, panels, own);
        shift.habits.due = 90;
        shift.habits.damage = 0;
        LongShift { shift, heard: 0, calls: Vec::new() }
    }

    fn draw(&mut self) {
        self.add_order();
        self.add_changes();
    }

    fn add(&mut self, call: Call) {
        self.shift.follow(&call);
        self.calls.push(call);
    }

    /// Hears the long order, from a clock on that leaves room before it. Strong
    /// ones are rare in it, since no context can name them until they are settled.
    fn add_order(&mut self) {
        let room = (self.shift.panels as usize - 1) * EVENTS - LATE_CALLS;
        let length = LONG + self.shift.random.below(room - LONG + 1);
        let strong = self.shift.random.one_of(&[0, 0, 2]);
        self.shift.hour = LATE_CALLS as u32;
        for _ in 0..length {
            self.shift.hour += self.shift.random.below(3) as u32;
            let request = self.request(Clock(self.shift.hour), strong);
            self.add(Call::Hear(request));
        }
        self.add(Call::RunDue);
    }

    /// Calls that change the order, with steps between, until idle.
    fn add_changes(&mut self) {
        for _ in 0..LATE_CALLS {
            let call = self.change();
            self.add(call);
            for _ in 0..self.shift.random.one_of(&[0, 0, 1, 8]) {
                let step = self.shift.step();
                self.add(step);
            }
            if self.shift.random.percent(85) {
                self.add(Call::RunDue);
            }
        }
        self.add(Call::RunDue);
    }

    fn change(&mut self) -> Call {
        if self.shift.random.percent(self.shift.habits.settlements) {
            if let Some(number) = self.shift.ready_or_waiting() {
                return Call::Settle(number);
            }
        }
        let clock = self.late_clock();
        if self.shift.random.percent(self.shift.habits.makes) {
            let strong = self.shift.random.percent(self.shift.habits.strong);
            return Call::Make(self.shift.operation(), strong, clock);
        }
        let strong = self.shift.habits.strong;
        Call::Hear(self.request(clock, strong))
    }

    /// The next request of the other panels in turn, strong by a percentage.
    fn request(&mut self, clock: Clock, strong: usize) -> Request {
        let others = self.shift.panels as usize - 1;
        let further = 1 + self.heard % others;
        let panel = (self.shift.own as usize + further) % self.shift.panels as usize;
        let number = Number::new(panel as u8, (self.heard / others) as u8 + 1);
        self.heard += 1;
        let operation = self.shift.operation();
        let strong = self.shift.random.percent(strong);
        let context = if strong { self.context_up_to_a_place() } else { NumberSet::EMPTY };
        Request { number, clock, operation, strong, context }
    }

    /// A place of the unsettled order: one of the first, one of the last or any.
    fn place(&mut self) -> usize {
        let places = self.shift.shadow.tentative().len() + 1;
        let near = self.shift.random.below(places.min(6));
        match self.shift.random.below(3) {
            0 => near,
            1 => places - 1 - near,
            _ => self.shift.random.below(places),
        }
    }

    /// A clock to stand at a place with, or beside it.
    fn late_clock(&mut self) -> Clock {
        let place = self.place();
        let Some(&slot) = self.shift.shadow.tentative().get(place) else { return Clock(self.shift.hour) };
        let there = self.shift.shadow.request(slot as usize).clock;
        Clock(there.0.saturating_sub(self.shift.random.below(2) as u32))
    }

    /// What is known, but for the unsettled requests from a place on: so far the
    /// order stays as it is when the request is settled.
    fn context_up_to_a_place(&mut self) -> NumberSet {
        let place = self.place();
        let mut context = *self.shift.shadow.causal_context();
        for slot in &self.shift.shadow.tentative()[place..] {
            context.remove(*slot as usize);
        }
        context
    }
}

/// The calls of one long shift, which leave the panel idle, and what to call
/// fresh with.
pub fn long_calls(seed: u64) -> (u8, u8, Vec<Call>) {
    let mut long = LongShift::new(seed);
    long.draw();
    let (panels, own) = long.shift.shop();
    (panels, own, long.calls)
}

/// An input of the printout program from a long shift without makes.
pub fn long_input(seed: u64) -> Vec<u8> {
    let mut long = LongShift::new(seed);
    long.shift.habits.makes = 0;
    long.draw();
    let (panels, own) = long.shift.shop();
    let mut bytes = vec![panels, own];
    for call in &long.calls {
        match call {
            Call::Hear(request) => append(&mut bytes, &Message::Request(*request)),
            Call::Settle(number) => append(&mut bytes, &Message::Settlement(*number)),
            _ => {}
        }
    }
    bytes
}
