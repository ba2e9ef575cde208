//! The requests of other panels that a drawn shift hears, good or damaged.

use crate::drawing::shift::Shift;
use crate::replica::request::*;

impl Shift {
    pub(super) fn heard_request(&mut self) -> Request {
        let mut request = self.good_request();
        if self.random.percent(self.habits.damage) {
            for _ in 0..1 + self.random.below(2) {
                self.damage(&mut request);
            }
        }
        request
    }

    /// A request that a panel of the shop could send. In a shop of one there
    /// is none, and it is an echo.
    fn good_request(&mut self) -> Request {
        let number = self.new_number();
        let clock = self.heard_clock();
        let operation = self.operation();
        let strong = self.random.percent(self.habits.strong);
        let context = if strong { self.context(number) } else { NumberSet::EMPTY };
        Request { number, clock, operation, strong, context }
    }

    /// The clock of a request of another panel, at times the last own reading
    /// or one beside it. Without an own request nothing more is drawn for it.
    fn heard_clock(&mut self) -> Clock {
        match self.last_own {
            Some(last) if self.random.percent(15) => {
                Clock(last.0.saturating_sub(1).saturating_add(self.random.below(3) as u32))
            }
            _ => self.clock(),
        }
    }

    fn new_number(&mut self) -> Number {
        if self.panels == 1 {
            return Number::new(0, 1 + self.random.below(EVENTS) as u8);
        }
        let further = 1 + self.random.below(self.panels as usize - 1);
        let panel = (self.own as usize + further) % self.panels as usize;
        let event = if self.random.percent(self.habits.skips) {
            1 + self.random.below(EVENTS)
        } else {
            self.next_event(panel)
        };
        Number::new(panel as u8, event as u8)
    }

    fn next_event(&self, panel: usize) -> usize {
        let slots = self.shadow.committed().iter().chain(self.shadow.tentative());
        let events = slots
            .map(|&slot| Number::of_slot(slot as usize))
            .filter(|number| number.panel.0 as usize == panel);
        let last = events.map(|number| number.event.0).max().unwrap_or(0);
        (last as usize + 1).min(EVENTS)
    }

    /// Some of what is known, and at times a number more that is not.
    fn context(&mut self, number: Number) -> NumberSet {
        let mut context = *self.shadow.causal_context();
        let thinning = self.random.below(4);
        for word in context.0.iter_mut() {
            for _ in 0..thinning {
                *word &= self.random.word() | self.random.word();
            }
        }
        if self.random.percent(self.habits.waiting) {
            context.insert(self.waiting_slot());
        }
        context.remove(number.slot());
        context
    }

    fn waiting_slot(&mut self) -> usize {
        let tentative = self.shadow.tentative();
        if !tentative.is_empty() && self.random.percent(50) {
            return self.random.one_of(tentative) as usize;
        }
        let panel = self.random.below(self.panels as usize);
        let event = self.next_event(panel) + self.random.below(2);
        Number::new(panel as u8, event.min(EVENTS) as u8).slot()
    }

    fn damage(&mut self, request: &mut Request) {
        match self.random.below(14) {
            0 => request.number.panel.0 = self.random.one_of(&[self.panels, 8, 255]),
            1 => request.number.event.0 = self.random.one_of(&[0, 65, 255]),
            2 => request.number.panel.0 = self.own,
            3 => request.operation = self.bad_operation(),
            4 => request.strong = false,
            5 => request.strong = true,
            6 => {
                request.context.0[(request.number.panel.0 & 7) as usize] |=
                    1 << (request.number.event.0.wrapping_sub(1) & 63)
            }
            7 => {
                request.context.0[self.random.one_of(&[self.panels & 7, 7]) as usize] |=
                    1 << self.random.below(EVENTS)
            }
            8 => request.context = NumberSet([u64::MAX; PANELS]),
            _ => self.copy_of_held(request),
        }
    }

    /// A request held already, as it is or with one field changed.
    fn copy_of_held(&mut self, request: &mut Request) {
        let held = self.shadow.accepted_requests();
        if held == 0 {
            return;
        }
        *request = self.shadow.request_at(1 + self.random.below(held)).request;
        if request.number.panel.0 == self.own {
            *request = self.shadow.request_at(1 + self.random.below(held)).request;
        }
        match self.random.below(10) {
            0 => request.clock.0 = request.clock.0.wrapping_add(1),
            1 => request.operation.amount ^= 1,
            2 => request.operation.r ^= 1,
            3 => request.operation = self.operation(),
            4 => {
                request.strong = !request.strong;
                request.context = NumberSet::EMPTY;
            }
            5 => request.context.0[self.random.below(self.panels as usize)] ^= 1 << self.random.below(EVENTS),
            _ => {}
        }
    }
}
