//! A list of calls for one panel, drawn one at a time. It drives a panel of its
//! own to know what would be interesting next: a due step, the wrong step, a
//! settlement that is ready or one that waits, a clock that is put back.

use crate::drawing::aimed_claims::AimedClaims;
use crate::drawing::habits::{Clocks, Habits};
use crate::drawing::random::Random;
use crate::replica::call::Call;
use crate::replica::panel::Panel;
use crate::replica::refusal::ACCEPTED;
use crate::replica::request::*;
use crate::replica::wire::Message;

/// A list of calls for one panel, drawn one at a time.
pub struct Shift {
    pub(super) random: Random,
    /// The stream that aimed moves are drawn from.
    pub(super) aims: Random,
    pub(super) claims: AimedClaims,
    pub(super) habits: Habits,
    pub(super) panels: u8,
    pub(super) own: u8,
    pub(super) shadow: Panel,
    pub(super) hour: u32,
    /// The reading of the last own request.
    pub(super) last_own: Option<Clock>,
}

impl Shift {
    pub fn new(seed: u64) -> Shift {
        let mut random = Random::new(seed);
        let panels = random.one_of(&[1, 2, 2, 3, 3, 4, 5, 6, 7, 8, 8]);
        let own = random.below(panels as usize) as u8;
        Shift::of_shop(random, panels, own)
    }

    pub(super) fn of_shop(mut random: Random, panels: u8, own: u8) -> Shift {
        let mut aims = random.fork();
        let claims = AimedClaims::draw(aims.fork());
        let habits = Habits::draw(&mut random, &mut aims);
        let (_, shadow) = Panel::fresh(panels, own);
        Shift { random, aims, claims, habits, panels, own, shadow, hour: 0, last_own: None }
    }

    /// Leaves out what is aimed, which the stored inputs do not have.
    pub(super) fn aim_at_nothing(&mut self) {
        self.habits.aimed = 0;
        self.claims.make_up(0);
    }

    /// What to call fresh with.
    pub fn shop(&self) -> (u8, u8) {
        (self.panels, self.own)
    }

    pub fn clocks(&self) -> Clocks {
        self.habits.clocks
    }

    pub fn next_call(&mut self) -> Call {
        let call = self.draw_call();
        self.follow(&call);
        call
    }

    /// A message for a panel that does its due steps after each.
    pub fn next_message(&mut self) -> Message {
        let message = if self.random.percent(self.habits.settlements) {
            Message::Settlement(self.settle_number())
        } else {
            Message::Request(self.heard_request())
        };
        match &message {
            Message::Request(request) => self.shadow.hear(request),
            Message::Settlement(number) => self.shadow.settle(*number),
        };
        self.shadow.run_due();
        message
    }

    fn draw_call(&mut self) -> Call {
        if self.random.percent(self.habits.steps) {
            return self.step();
        }
        if self.random.percent(4) {
            return self.show();
        }
        if self.random.percent(3) {
            return Call::RunDue;
        }
        if self.random.percent(self.habits.settlements) {
            return Call::Settle(self.settle_number());
        }
        if self.random.percent(self.habits.makes) {
            return self.make();
        }
        Call::Hear(self.heard_request())
    }

    pub(super) fn follow(&mut self, call: &Call) {
        match call {
            Call::Make(operation, strong, clock) => {
                let answer = self.shadow.make(*operation, *strong, *clock);
                if answer.refusal == ACCEPTED {
                    self.last_own = Some(answer.request.clock);
                }
            }
            Call::Hear(request) => drop(self.shadow.hear(request)),
            Call::Settle(number) => drop(self.shadow.settle(*number)),
            Call::Undo => drop(self.shadow.undo()),
            Call::CarryOut => drop(self.shadow.carry_out()),
            Call::RunDue => drop(self.shadow.run_due()),
            Call::Register(_) | Call::RequestAt(_) => {}
        }
    }

    pub(super) fn step(&mut self) -> Call {
        let undo_due = !self.shadow.to_be_rolled_back_reversed().is_empty();
        if undo_due == self.random.percent(self.habits.due) {
            Call::Undo
        } else {
            Call::CarryOut
        }
    }

    fn show(&mut self) -> Call {
        if self.random.percent(50) {
            let r = if self.random.percent(10) { self.random.byte() } else { self.random.below(65) as u8 };
            Call::Register(r)
        } else {
            Call::RequestAt(self.random.below(self.shadow.accepted_requests() + 3))
        }
    }

    fn make(&mut self) -> Call {
        let operation = self.operation();
        let strong = self.random.percent(self.habits.strong);
        let clock = self.made_clock();
        Call::Make(operation, strong, clock)
    }

    /// The clock that a request is made with: put back, or at least the last
    /// own reading.
    fn made_clock(&mut self) -> Clock {
        let Some(last) = self.last_own else { return self.clock() };
        if self.random.percent(self.habits.back) {
            return self.clock_put_back(last);
        }
        let clock = if self.random.percent(20) { self.held_clock() } else { self.clock() };
        if clock < last {
            Clock(last.0.saturating_add(self.random.below(2) as u32))
        } else {
            clock
        }
    }

    /// A reading just below the last own one or far below it, or the reading
    /// of a request held, which may also lie above.
    fn clock_put_back(&mut self, last: Clock) -> Clock {
        match self.random.below(6) {
            0 | 1 => Clock(last.0.saturating_sub(1)),
            2 | 3 => Clock(last.0.saturating_sub(2 + self.random.below(8) as u32)),
            4 => Clock(self.random.below(last.0 as usize + 1) as u32),
            _ => self.held_clock(),
        }
    }

    /// The reading of one of the requests held, for an own one to tie with.
    fn held_clock(&mut self) -> Clock {
        let held = self.shadow.accepted_requests();
        self.shadow.request_at(1 + self.random.below(held)).request.clock
    }

    pub(super) fn clock(&mut self) -> Clock {
        Clock(match self.habits.clocks {
            Clocks::Tied => self.random.below(4) as u32,
            Clocks::Rising => {
                self.hour += self.random.below(3) as u32;
                self.hour.saturating_sub(self.random.one_of(&[0, 0, 0, 1, 2, 9]))
            }
            Clocks::Anywhere => self.random.number32(),
            Clocks::Top => u32::MAX - self.random.below(6) as u32,
        })
    }

    fn settle_number(&mut self) -> Number {
        if self.random.percent(self.habits.damage / 2) {
            return Number::new(
                self.random.one_of(&[0, self.panels, 8, 255]),
                self.random.one_of(&[0, 1, 64, 65, 255]),
            );
        }
        if self.random.percent(80) {
            if let Some(number) = self.ready_or_waiting() {
                return number;
            }
        }
        let held = self.shadow.accepted_requests();
        if held > 0 && self.random.percent(80) {
            return self.shadow.request_at(1 + self.random.below(held)).request.number;
        }
        Number::new(self.random.below(self.panels as usize) as u8, 1 + self.random.below(EVENTS) as u8)
    }

    /// A tentative strong request, found from a random place on. Those whose
    /// context waits are mostly passed over.
    pub(super) fn ready_or_waiting(&mut self) -> Option<Number> {
        let tentative = self.shadow.tentative();
        if tentative.is_empty() {
            return None;
        }
        let start = self.random.below(tentative.len());
        for away in 0..tentative.len() {
            let slot = tentative[(start + away) % tentative.len()];
            let request = self.shadow.request(slot as usize);
            let ready = request.context.first_outside(self.shadow.causal_context()).is_none();
            if request.strong && (ready || self.random.percent(35)) {
                return Some(request.number);
            }
        }
        None
    }
}

/// What to call fresh with: mostly a good shop, else one just outside.
pub fn shop(random: &mut Random) -> (u8, u8) {
    if random.percent(60) {
        let panels = 1 + random.below(PANELS) as u8;
        (panels, random.below(panels as usize) as u8)
    } else {
        (random.one_of(&[0, 1, 8, 9, 255]), random.one_of(&[0, 1, 7, 8, 9, 255]))
    }
}

/// The calls of one shift as they are stored, with nothing aimed, and what to
/// call fresh with.
pub fn calls(seed: u64, length: usize) -> (u8, u8, Vec<Call>) {
    let mut shift = Shift::new(seed);
    shift.aim_at_nothing();
    let (panels, own) = shift.shop();
    (panels, own, (0..length).map(|_| shift.next_call()).collect())
}
