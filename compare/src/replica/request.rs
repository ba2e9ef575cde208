//! Requests and their parts. Panel, event and clock are types of their own, so
//! that a clock reading handed over where an event is due does not compile.

use std::ops::Range;

pub const PANELS: usize = 8;
pub const EVENTS: usize = 64;
pub const REQUESTS: usize = PANELS * EVENTS;
pub const REGISTERS: usize = 64;

pub const READ: u8 = 1;
pub const SET: u8 = 2;
pub const ADD: u8 = 3;
pub const CLAIM: u8 = 4;
pub const MOVE: u8 = 5;
pub const CLAIM_TOGETHER: u8 = 6;

/// The most registers that one request claims together.
pub const MOST_TOGETHER: usize = 4;

#[derive(Clone, Copy, Debug, Default, PartialEq, Eq, PartialOrd, Ord)]
pub struct PanelNo(pub u8);

#[derive(Clone, Copy, Debug, Default, PartialEq, Eq, PartialOrd, Ord)]
pub struct EventNo(pub u8);

#[derive(Clone, Copy, Debug, Default, PartialEq, Eq, PartialOrd, Ord)]
pub struct Clock(pub u32);

/// Names a request. Nothing stops a caller from naming a request that no shop
/// can have; such a number is refused where it comes in.
#[derive(Clone, Copy, Debug, Default, PartialEq, Eq, PartialOrd, Ord)]
pub struct Number {
    pub panel: PanelNo,
    pub event: EventNo,
}

impl Number {
    pub const fn new(panel: u8, event: u8) -> Number {
        Number { panel: PanelNo(panel), event: EventNo(event) }
    }

    /// The row of the tables that belongs to a good number. Slots rise with
    /// the panel and then with the event, as the clock order wants at a tie.
    pub fn slot(self) -> usize {
        self.panel.0 as usize * EVENTS + self.event.0 as usize - 1
    }

    pub fn of_slot(slot: usize) -> Number {
        Number::new((slot / EVENTS) as u8, (slot % EVENTS + 1) as u8)
    }
}

/// A set of numbers: word p is for panel p, bit e−1 for event e. Slot s is
/// therefore bit s of the whole.
#[derive(Clone, Copy, Debug, Default, PartialEq, Eq)]
pub struct NumberSet(pub [u64; PANELS]);

impl NumberSet {
    pub const EMPTY: NumberSet = NumberSet([0; PANELS]);

    pub fn contains(&self, slot: usize) -> bool {
        self.0[slot / EVENTS] >> (slot % EVENTS) & 1 == 1
    }

    pub fn insert(&mut self, slot: usize) {
        self.0[slot / EVENTS] |= 1 << (slot % EVENTS);
    }

    pub fn remove(&mut self, slot: usize) {
        self.0[slot / EVENTS] &= !(1 << (slot % EVENTS));
    }

    pub fn insert_all(&mut self, other: &NumberSet) {
        for (word, more) in self.0.iter_mut().zip(other.0) {
            *word |= more;
        }
    }

    pub fn is_empty(&self) -> bool {
        self.0 == [0; PANELS]
    }

    pub fn names_panel_from(&self, panels: u8) -> bool {
        self.0[panels as usize..].iter().any(|&word| word != 0)
    }

    /// How many of these numbers `other` lacks.
    pub fn count_outside(&self, other: &NumberSet) -> usize {
        let outside = self.0.iter().zip(other.0).map(|(word, had)| word & !had);
        outside.map(|word| word.count_ones() as usize).sum()
    }

    /// The first of these numbers that `other` lacks: lowest panel, then
    /// lowest event.
    pub fn first_outside(&self, other: &NumberSet) -> Option<Number> {
        for panel in 0..PANELS {
            let outside = self.0[panel] & !other.0[panel];
            if outside != 0 {
                return Some(Number::of_slot(panel * EVENTS + outside.trailing_zeros() as usize));
            }
        }
        None
    }
}

#[derive(Clone, Copy, Debug, Default, PartialEq, Eq)]
pub struct Operation {
    pub code: u8,
    pub r: u8,
    pub q: u8,
    pub amount: u32,
}

impl Operation {
    pub const fn new(code: u8, r: u8, q: u8, amount: u32) -> Operation {
        Operation { code, r, q, amount }
    }

    pub fn is_bad(&self) -> bool {
        let (r, q) = (self.r as usize, self.q as usize);
        if r >= REGISTERS || q >= REGISTERS {
            return true;
        }
        match self.code {
            READ => q != 0 || self.amount != 0,
            SET | ADD => q != 0,
            CLAIM => q != 0 || self.amount == 0,
            MOVE => r == q,
            CLAIM_TOGETHER => !(r..r + MOST_TOGETHER).contains(&q) || self.amount == 0,
            _ => true,
        }
    }

    /// Carries out a good operation and gives its response. Code 6 is told apart
    /// first, since one more case among the others makes all of them slower.
    #[inline(always)]
    pub fn execute(&self, registers: &mut [u32; REGISTERS]) -> u32 {
        if self.code == CLAIM_TOGETHER {
            return self.execute_claim_together(registers);
        }
        let r = self.r as usize;
        match self.code {
            READ => registers[r],
            SET => std::mem::replace(&mut registers[r], self.amount),
            ADD => {
                registers[r] = registers[r].wrapping_add(self.amount);
                registers[r]
            }
            CLAIM => {
                if registers[r] == 0 {
                    registers[r] = self.amount;
                }
                registers[r]
            }
            _ => self.execute_move(registers),
        }
    }

    /// Moves the least of the amount, what r holds and the room left in q, and
    /// gives how much that is.
    fn execute_move(&self, registers: &mut [u32; REGISTERS]) -> u32 {
        let (r, q) = (self.r as usize, self.q as usize);
        let room = u32::MAX - registers[q];
        let moved = self.amount.min(registers[r]).min(room);
        registers[r] -= moved;
        registers[q] += moved;
        moved
    }

    /// Claims r to q if all of them are 0, and gives the amount or else what
    /// the lowest one held has.
    fn execute_claim_together(&self, registers: &mut [u32; REGISTERS]) -> u32 {
        let claimed = &mut registers[self.r as usize..=self.q as usize];
        match claimed.iter().find(|value| **value != 0) {
            Some(held) => *held,
            None => {
                claimed.fill(self.amount);
                self.amount
            }
        }
    }

    /// Keeps the values that a good operation may change: those of r and q, or
    /// those of the neighbours that it claims together.
    #[inline]
    pub fn keep(&self, registers: &[u32; REGISTERS], before: &mut [u32; MOST_TOGETHER]) {
        if self.code == CLAIM_TOGETHER {
            before.copy_from_slice(&registers[self.neighbours()]);
        } else {
            before[0] = registers[self.r as usize];
            before[1] = registers[self.q as usize];
        }
    }

    /// Puts back the values that were kept. Register q of codes 1 to 4 is
    /// register 0, which then takes back the value that it still has.
    #[inline]
    pub fn put_back(&self, before: &[u32; MOST_TOGETHER], registers: &mut [u32; REGISTERS]) {
        if self.code == CLAIM_TOGETHER {
            registers[self.neighbours()].copy_from_slice(before);
        } else {
            registers[self.q as usize] = before[1];
            registers[self.r as usize] = before[0];
        }
    }

    /// Four neighbours with all that is claimed together among them.
    fn neighbours(&self) -> Range<usize> {
        let first = (self.r as usize).min(REGISTERS - MOST_TOGETHER);
        first..first + MOST_TOGETHER
    }
}

#[derive(Clone, Copy, Debug, Default, PartialEq, Eq)]
pub struct Request {
    pub number: Number,
    pub clock: Clock,
    pub operation: Operation,
    pub strong: bool,
    /// Empty in every weak request that a panel holds.
    pub context: NumberSet,
}
