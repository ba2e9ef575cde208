//! The shifts that are timed.

use mizzencord_compare::drawing::random::Random;
use mizzencord_compare::replica::call::Call;
use mizzencord_compare::replica::calls;
use mizzencord_compare::replica::panel::Panel;
use mizzencord_compare::replica::refusal::ACCEPTED;
use mizzencord_compare::replica::request::*;
use mizzencord_compare::replica::wire::append;
use mizzencord_compare::replica::wire::Message;

use crate::operations::Operations;

/// Every so manieth request is strong where there are settlements.
const STRONG_EVERY: usize = 8;

/// The order in which requests are heard, by their clocks.
#[derive(Clone, Copy, PartialEq, Eq)]
pub enum Order {
    Rising,
    Falling,
    /// In the order that a seed gives.
    Shuffled(u64),
}

/// How many requests the orders of a shuffled shift have together that are timed in
/// turn: a small shift has more orders, since it is learned sooner.
const REQUESTS_OF_ALL_ORDERS: usize = 8192;

/// A shift of the last panel of eight, each call followed by all due steps.
#[derive(Clone, Copy)]
pub struct Shift {
    pub own: usize,
    pub heard: usize,
    pub order: Order,
    pub settlements: bool,
    pub operations: Operations,
}

impl Shift {
    pub fn of(requests: usize, order: Order, settlements: bool) -> Shift {
        let own = requests / PANELS;
        Shift { own, heard: requests - own, order, settlements, operations: Operations::OfAnyKind }
    }

    /// So many requests that are heard in order, and none made.
    pub fn heard_in_order(heard: usize) -> Shift {
        Shift { own: 0, heard, ..Shift::of(0, Order::Rising, false) }
    }

    pub fn requests(&self) -> usize {
        self.own + self.heard
    }

    pub fn name(&self) -> String {
        let order = match self.order {
            Order::Rising => "in order",
            Order::Falling => "falling",
            Order::Shuffled(_) => "shuffled",
        };
        let settled = if self.settlements { ", settled" } else { "" };
        format!("{order}{settled}")
    }

    /// The shift in each order that is timed: one, or several where it is
    /// shuffled.
    pub fn orders(&self) -> Vec<Shift> {
        match self.order {
            Order::Shuffled(_) => {
                let seeds = 0..(REQUESTS_OF_ALL_ORDERS / self.requests()) as u64;
                seeds.map(|seed| Shift { order: Order::Shuffled(seed), ..*self }).collect()
            }
            Order::Rising | Order::Falling => vec![*self],
        }
    }

    fn strong(&self, place: usize) -> bool {
        self.settlements && place.is_multiple_of(STRONG_EVERY)
    }

    /// The clocks of the requests heard. In falling order each is to stand before
    /// all others.
    fn clocks(&self) -> Vec<usize> {
        let places = 0..self.heard;
        match self.order {
            Order::Rising => places.map(|place| self.own + place).collect(),
            Order::Falling => places.map(|place| self.heard - place).collect(),
            Order::Shuffled(seed) => shuffled(self.requests(), seed).into_iter().take(self.heard).collect(),
        }
    }

    /// The own requests are made first and with rising clocks: a lower one would
    /// be raised to the last. In a shuffled shift they stand among the others.
    fn own_clock(&self, place: usize) -> usize {
        match self.order {
            Order::Rising => place,
            Order::Falling => self.heard + place,
            Order::Shuffled(_) => place * self.requests() / self.own,
        }
    }

    /// The requests heard, in their order.
    pub fn requests_heard(&self) -> Vec<Request> {
        let request = |(place, clock): (usize, usize)| Request {
            number: Number::new((place % (PANELS - 1)) as u8, (place / (PANELS - 1)) as u8 + 1),
            clock: Clock(clock as u32),
            operation: self.operations.at(place),
            strong: self.strong(place),
            context: NumberSet::EMPTY,
        };
        self.clocks().into_iter().enumerate().map(request).collect()
    }

    fn make(&self, place: usize) -> Call {
        Call::Make(self.operations.at(place), self.strong(place), Clock(self.own_clock(place) as u32))
    }

    /// The strong requests in the order made and heard.
    fn settled(&self) -> Vec<Number> {
        let own = (0..self.own).filter(|place| self.strong(*place));
        let own = own.map(|place| Number::new(PANELS as u8 - 1, place as u8 + 1));
        let heard = self.requests_heard().into_iter().filter(|request| request.strong);
        own.chain(heard.map(|request| request.number)).collect()
    }

    /// The calls without the due steps.
    pub fn calls(&self) -> Vec<Call> {
        let own = (0..self.own).map(|place| self.make(place));
        let heard = self.requests_heard().into_iter().map(Call::Hear);
        own.chain(heard).chain(self.settled().into_iter().map(Call::Settle)).collect()
    }

    /// The calls, each followed by all due steps.
    pub fn calls_to_idle(&self) -> Vec<Call> {
        self.calls().into_iter().flat_map(|call| [call, Call::RunDue]).collect()
    }

    /// The steps done, in the mean of all orders, and that no call is refused.
    pub fn steps(&self) -> f64 {
        let orders = self.orders();
        let steps: usize = orders.iter().map(Shift::steps_in_this_order).sum();
        steps as f64 / orders.len() as f64
    }

    fn steps_in_this_order(&self) -> usize {
        let (_, mut panel) = Panel::fresh(PANELS as u8, PANELS as u8 - 1);
        for call in self.calls_to_idle() {
            assert_eq!(calls::carry(&mut panel, &call).refusal, ACCEPTED);
        }
        (panel.undos_done() + panel.carry_outs_done()) as usize
    }

    /// What is heard and settled as messages.
    pub fn messages(&self) -> Vec<Message> {
        let heard = self.requests_heard().into_iter().map(Message::Request);
        heard.chain(self.settled().into_iter().map(Message::Settlement)).collect()
    }

    /// The input of a printout with these messages.
    pub fn input(&self) -> Vec<u8> {
        let mut bytes = vec![PANELS as u8, PANELS as u8 - 1];
        self.messages().iter().for_each(|message| append(&mut bytes, message));
        bytes
    }
}

/// The numbers below a limit in the order that a seed gives.
fn shuffled(limit: usize, seed: u64) -> Vec<usize> {
    let mut random = Random::new(seed);
    let mut numbers: Vec<usize> = (0..limit).collect();
    for place in (1..limit).rev() {
        numbers.swap(place, random.below(place + 1));
    }
    numbers
}
