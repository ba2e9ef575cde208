//! What a shop is like: how large it is, and how its clocks and operations are
//! drawn. The operations are about few registers and small amounts, so that
//! most orders show in what they leave there.

use crate::drawing::random::Random;
use crate::replica::request::*;
use crate::shop_test::account::{FIRST_CLOCK, LAST_CLOCK};

#[derive(Clone, Copy)]
enum Clocks {
    /// A handful of readings, so that most requests tie.
    Tied,
    /// Rising, with some far behind.
    Rising,
    Anywhere,
    /// The highest readings but the last.
    Top,
}

/// Fields of small numbers are percentages unless they say otherwise.
pub struct Habits {
    clocks: Clocks,
    hour: u32,
    /// How many registers the operations are about.
    registers: usize,
    pub strong: usize,
    /// Actions that are steps, and that go wrong.
    pub steps: usize,
    pub trouble: usize,
    /// Messages that the bus loses, and those that come again.
    pub drops: usize,
    pub repeats: usize,
    /// Settlements that come out of turn.
    pub disorder: usize,
    /// Requests that come with another clock than others get.
    pub doubles: usize,
}

impl Habits {
    pub fn draw(random: &mut Random) -> Habits {
        Habits {
            clocks: random.one_of(&[
                Clocks::Tied,
                Clocks::Tied,
                Clocks::Rising,
                Clocks::Anywhere,
                Clocks::Top,
            ]),
            hour: 20,
            registers: random.one_of(&[2, 2, 3, 5, REGISTERS]),
            strong: random.one_of(&[20, 40, 40, 70]),
            steps: random.one_of(&[5, 15, 30]),
            trouble: random.one_of(&[0, 5, 15]),
            drops: random.one_of(&[0, 10, 40]),
            repeats: random.one_of(&[0, 10, 40]),
            disorder: random.one_of(&[0, 0, 0, 0, 0, 0, 0, 0, 0, 40]),
            doubles: random.one_of(&[0, 0, 0, 0, 0, 0, 0, 0, 0, 10]),
        }
    }

    /// Any clock but the two that stand for reading alone.
    pub fn clock(&mut self, random: &mut Random) -> Clock {
        let clock = match self.clocks {
            Clocks::Tied => 1 + random.below(3) as u32,
            Clocks::Rising => {
                self.hour += random.below(3) as u32;
                self.hour - random.one_of(&[0, 0, 0, 1, 2, 9, 19])
            }
            Clocks::Anywhere => random.number32(),
            Clocks::Top => u32::MAX - 1 - random.below(4) as u32,
        };
        Clock(clock.clamp(FIRST_CLOCK.0 + 1, LAST_CLOCK.0 - 1))
    }

    pub fn operation(&self, random: &mut Random) -> Operation {
        let r = random.below(self.registers) as u8;
        let q = ((r as usize + 1 + random.below(self.registers - 1)) % self.registers) as u8;
        let amount =
            if random.percent(4) { u32::MAX - random.below(3) as u32 } else { random.below(6) as u32 };
        match random.one_of(&[READ, SET, SET, ADD, ADD, CLAIM, MOVE, MOVE, CLAIM_TOGETHER]) {
            READ => Operation::new(READ, r, 0, 0),
            MOVE => Operation::new(MOVE, r, q, amount),
            CLAIM_TOGETHER => {
                let last = (r as usize + random.below(MOST_TOGETHER)).min(REGISTERS - 1);
                Operation::new(CLAIM_TOGETHER, r, last as u8, amount.max(1))
            }
            code => Operation::new(code, r, 0, if code == CLAIM { amount.max(1) } else { amount }),
        }
    }
}

/// How many panels a shop has, how many of them are followed, and how many
/// requests they make.
pub struct Size {
    pub panels: usize,
    pub running: usize,
    pub requests: usize,
}

impl Size {
    /// Most shops are small. One in a thousand is large, at times with a panel
    /// that makes all the requests of a shift.
    pub fn draw(random: &mut Random) -> Size {
        let (running, requests) = match random.below(1000) {
            0 => (2 + random.below(7), random.one_of(&[100, 200, 300, 520])),
            1..=20 => (2 + random.below(7), 12 + random.below(25)),
            21..=250 => (2 + random.below(3), 6 + random.below(8)),
            _ => (2 + random.below(2), 2 + random.below(6)),
        };
        let panels = (running + random.one_of(&[0, 1, 2, 3, 6])).min(PANELS);
        Size { panels, running, requests }
    }
}
