//! Seeded shops whose panels make requests and hear each other over a bus that
//! drops, repeats and reorders; at the end it is mended. Besides the panels that
//! are followed there may be others, whose requests come from nowhere and have
//! contexts of any kind.

use crate::drawing::random::Random;
use crate::replica::call::Call;
use crate::replica::calls;
use crate::replica::refusal::*;
use crate::replica::request::*;
use crate::shop_test::habits::{Habits, Size};
use crate::shop_test::histories::{History, Shop};
use crate::shop_test::running::Running;

/// A shop with the requests made in it, its settlements in their order, and
/// the panels that made nothing.
pub struct Drawn {
    pub shop: Shop,
    pub made: Vec<Request>,
    pub settlements: Vec<Number>,
    pub silent: Vec<u8>,
}

/// The events behind these are left for reading where a panel is not followed.
const EVENTS_TO_MAKE: u8 = 40;

/// How many registers are read in most shops, beside one that is drawn.
const MOST_READ: usize = 3;

struct Bus {
    random: Random,
    habits: Habits,
    panels: u8,
    running: Vec<Running>,
    /// Panels that make requests and are not followed, with their last events.
    others: Vec<(u8, u8)>,
    made: Vec<Request>,
    /// Strong requests without a place among the settlements.
    unsettled: Vec<Number>,
    settlements: Vec<Number>,
}

pub fn draw(seed: u64) -> Drawn {
    let mut random = Random::new(seed);
    let size = Size::draw(&mut random);
    let mut bus = Bus::new(random, &size);
    // Not every action makes a request, and a full shift makes no more.
    for _ in 0..size.requests * 15 {
        if bus.made.len() >= size.requests {
            break;
        }
        bus.act();
    }
    bus.mend();
    bus.drawn()
}

impl Bus {
    fn new(mut random: Random, size: &Size) -> Bus {
        let panels = size.panels as u8;
        let mut numbers: Vec<u8> = (0..panels).collect();
        shuffle(&mut numbers, &mut random);
        let others = numbers.split_off(size.running);
        let makers = random.below(others.len() + 1);
        let habits = Habits::draw(&mut random);
        let mut running: Vec<Running> =
            numbers.iter().map(|own| Running::new(panels, *own, &mut random)).collect();
        running[0].makes |= makers == 0;
        if size.requests >= REQUESTS {
            running.iter_mut().for_each(|running| running.makes = true);
        }
        Bus {
            random,
            habits,
            panels,
            running,
            others: others[..makers].iter().map(|panel| (*panel, 0)).collect(),
            made: Vec::new(),
            unsettled: Vec::new(),
            settlements: Vec::new(),
        }
    }

    /// Something happens at a panel, or one that is not followed makes a request.
    fn act(&mut self) {
        let who = self.random.below(self.running.len());
        if self.random.percent(self.habits.steps) {
            return self.step(who);
        }
        if self.random.percent(self.habits.trouble) {
            return self.trouble(who);
        }
        match self.random.below(16) {
            0..=2 => self.make(who),
            3 => self.make_elsewhere(),
            4..=9 => self.hear(who),
            10 | 11 => self.order_settlement(),
            12..=14 => self.settle(who),
            _ => {
                self.catch_up(who);
                self.catch_up((who + 1) % self.running.len());
            }
        }
    }

    fn make(&mut self, who: usize) {
        if !self.running[who].makes {
            return self.make_elsewhere();
        }
        let operation = self.habits.operation(&mut self.random);
        let strong = self.random.percent(self.habits.strong);
        let clock = self.habits.clock(&mut self.random);
        let answer = self.running[who].give(Call::Make(operation, strong, clock));
        if answer.refusal == ACCEPTED {
            self.spread(answer.request);
        }
    }

    /// Puts a request on the bus, which loses some.
    fn spread(&mut self, request: Request) {
        self.made.push(request);
        if request.strong {
            self.unsettled.push(request.number);
        }
        for running in self.running.iter_mut().filter(|running| running.own != request.number.panel.0) {
            if !self.random.percent(self.habits.drops) {
                running.inbound.push(request);
            }
        }
    }

    /// A request of a panel that is not followed. Its context has any of the
    /// weak requests and of the settlements there are.
    fn make_elsewhere(&mut self) {
        if self.others.is_empty() {
            return;
        }
        let chosen = self.random.below(self.others.len());
        let (panel, last) = self.others[chosen];
        let event = last + 1 + self.random.percent(10) as u8;
        if event > EVENTS_TO_MAKE {
            return;
        }
        self.others[chosen].1 = event;
        let strong = self.random.percent(self.habits.strong);
        let context = if strong { self.any_context() } else { NumberSet::EMPTY };
        let operation = self.habits.operation(&mut self.random);
        let clock = self.habits.clock(&mut self.random);
        self.spread(Request { number: Number::new(panel, event), clock, operation, strong, context });
    }

    fn any_context(&mut self) -> NumberSet {
        let percent = self.random.one_of(&[0, 30, 60, 100]);
        let weak = self.made.iter().filter(|request| !request.strong).map(|request| request.number);
        let mut context = NumberSet::EMPTY;
        for number in weak.chain(self.settlements.iter().copied()) {
            if self.random.percent(percent) {
                context.insert(number.slot());
            }
        }
        context
    }

    /// One of the requests on the way, which may come again.
    fn hear(&mut self, who: usize) {
        let running = &mut self.running[who];
        if running.inbound.is_empty() {
            return;
        }
        let chosen = self.random.below(running.inbound.len());
        let mut request = running.inbound[chosen];
        if !self.random.percent(self.habits.repeats) {
            running.inbound.swap_remove(chosen);
        }
        if self.random.percent(self.habits.doubles) {
            request.clock = self.habits.clock(&mut self.random);
        }
        running.give(Call::Hear(request));
    }

    /// Puts a strong request next among the shop's settlements.
    fn order_settlement(&mut self) {
        if !self.unsettled.is_empty() {
            let chosen = self.random.below(self.unsettled.len());
            self.settlements.push(self.unsettled.swap_remove(chosen));
        }
    }

    /// The next settlement, whether or not its time has come, or in a shop
    /// without order any later one.
    fn settle(&mut self, who: usize) {
        let running = &mut self.running[who];
        let left = self.settlements.len() - running.settled;
        if left == 0 {
            return;
        }
        let further = if self.random.percent(self.habits.disorder) { self.random.below(left) } else { 0 };
        let number = self.settlements[running.settled + further];
        let refusal = running.give(Call::Settle(number)).refusal;
        if further == 0 && [ACCEPTED, SETTLED_ALREADY].contains(&refusal) {
            running.settled += 1;
        }
    }

    /// The due steps or some of them, or one that may be the wrong one.
    fn step(&mut self, who: usize) {
        let running = &mut self.running[who];
        match self.random.below(8) {
            0 => drop(running.give(Call::Undo)),
            1 => drop(running.give(Call::CarryOut)),
            2 => drop(running.give(Call::RunDue)),
            _ => {
                let steps = running.panel.owed().min(1 + self.random.below(4));
                for _ in 0..steps {
                    running.give(calls::due_step(&running.panel));
                }
            }
        }
    }

    /// A call that is refused, but for what a panel does not hold yet.
    fn trouble(&mut self, who: usize) {
        let running = &mut self.running[who];
        let Some(held) = running.any_held(&mut self.random) else { return };
        let other = Request { clock: Clock(held.clock.0 ^ 2), ..held };
        let outside = Request { number: Number::new(self.panels, 1), ..held };
        let mut names_itself = Request { strong: true, ..held };
        names_itself.context.insert(held.number.slot());
        let bad = Operation::new(MOVE, held.operation.r, held.operation.r, 1);
        let call = match self.random.below(9) {
            0 | 1 => Call::Hear(held),
            2 => Call::Hear(other),
            3 => Call::Hear(outside),
            4 => Call::Hear(names_itself),
            5 => Call::Make(bad, true, held.clock),
            6 => Call::Hear(Request { operation: bad, ..held }),
            7 => match self.settlements[..running.settled] {
                [] => Call::Settle(Number::new(self.panels - 1, EVENTS as u8)),
                [.., last] => Call::Settle(last),
            },
            _ if held.strong => Call::Settle(Number::new(self.panels, 1)),
            _ => Call::Settle(held.number),
        };
        running.give(call);
    }

    /// Gives a panel all that it lacks, strong requests first at times and the
    /// settlements as far as they go, and lets it do what is due, or some of it.
    fn catch_up(&mut self, who: usize) {
        let held = self.running[who].held;
        let mut lacking = self.made.clone();
        lacking.retain(|request| !held.contains(request.number.slot()));
        shuffle(&mut lacking, &mut self.random);
        if self.random.percent(40) {
            lacking.sort_by_key(|request| !request.strong);
        }
        for request in lacking {
            self.running[who].give(Call::Hear(request));
            if self.random.percent(self.habits.steps) {
                self.step(who);
            }
            if self.random.percent(15) {
                self.settle(who);
            }
        }
        self.settle_in_turn(who);
        if self.random.percent(60) {
            self.running[who].give(Call::RunDue);
            self.running[who].give(Call::CarryOut);
        }
    }

    /// Settlements in the shop's order, up to the first that cannot be done.
    fn settle_in_turn(&mut self, who: usize) {
        let running = &mut self.running[who];
        for number in &self.settlements[running.settled..] {
            let refusal = running.give(Call::Settle(*number)).refusal;
            if ![ACCEPTED, SETTLED_ALREADY].contains(&refusal) {
                return;
            }
            running.settled += 1;
        }
    }

    fn mend(&mut self) {
        while !self.unsettled.is_empty() && self.random.percent(85) {
            self.order_settlement();
        }
        for who in 0..self.running.len() {
            self.catch_up(who);
        }
    }

    fn drawn(mut self) -> Drawn {
        let read = self.registers_to_read();
        let front = self.random.percent(25);
        let makes = |panel: &u8| self.made.iter().any(|request| request.number.panel.0 == *panel);
        let silent = (0..self.panels).filter(|panel| !makes(panel)).collect();
        let histories = self
            .running
            .into_iter()
            .map(|running| History { own: running.own, calls: running.calls })
            .collect();
        let shop = Shop { panels: self.panels, histories, read, front };
        Drawn { shop, made: self.made, settlements: self.settlements, silent }
    }

    /// Some of those that the operations are about and any other, or at times all.
    fn registers_to_read(&mut self) -> Vec<u8> {
        if self.random.below(200) == 0 {
            return (0..REGISTERS as u8).collect();
        }
        let mut read = vec![self.random.below(REGISTERS) as u8];
        for request in &self.made {
            for register in [request.operation.r, request.operation.q] {
                if read.len() <= MOST_READ && !read.contains(&register) {
                    read.push(register);
                }
            }
        }
        read
    }
}

pub fn shuffle<T>(items: &mut [T], random: &mut Random) {
    for last in (1..items.len()).rev() {
        items.swap(last, random.below(last + 1));
    }
}
