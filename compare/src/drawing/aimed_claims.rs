//! Claims of neighbouring registers for seeded shifts, and what frees such
//! registers again. They are drawn from a stream of their own, in place of
//! operations that a shift has drawn, and aimed at what the registers hold once
//! the panel is idle.

use crate::drawing::random::Random;
use crate::replica::panel::Panel;
use crate::replica::request::*;

/// How many registers the claims of a shift are about.
const CLAIMED: usize = 6;

pub struct AimedClaims {
    random: Random,
    /// How many percent of a shift's operations other than moves are drawn here.
    share: usize,
    /// The first of the registers that are claimed.
    first: usize,
}

impl AimedClaims {
    pub fn draw(mut random: Random) -> AimedClaims {
        let share = random.one_of(&[0, 15, 30, 60]);
        let first = random.one_of(&[0, 2, 4, REGISTERS - CLAIMED]);
        AimedClaims { random, share, first }
    }

    /// Draws so many percent of a shift's operations other than moves.
    pub fn make_up(&mut self, share: usize) {
        self.share = share;
    }

    /// A good operation as it was drawn, or, in place of any but a move, a claim
    /// or what frees a register where the registers do not suit the claim.
    pub fn in_place_of(&mut self, drawn: Operation, panel: &Panel) -> Operation {
        if drawn.code == MOVE || !self.random.percent(self.share) {
            return drawn;
        }
        let mut idle = panel.clone();
        idle.run_due();
        let registers = idle.registers();
        let count = self.random.one_of(&[1, 2, 3, 4, 4, 4]);
        let first = match self.random.below(10) {
            0..=2 => self.first_of(count, None, registers),
            3..=5 => {
                let place = self.random.below(count).max(self.random.below(count));
                self.first_of(count, Some(place), registers)
            }
            6 => Some(self.first + self.random.below(CLAIMED + 1 - count)),
            7 => Some(self.random.below(REGISTERS + 1 - count)),
            _ => None,
        };
        match first {
            Some(r) => Operation::new(CLAIM_TOGETHER, r as u8, (r + count - 1) as u8, self.value()),
            None => self.freeing(registers),
        }
    }

    /// The first of so many neighbours, of which the one at a place is held and
    /// no other is.
    fn first_of(&mut self, count: usize, held: Option<usize>, registers: &[u32; REGISTERS]) -> Option<usize> {
        let choices = CLAIMED + 1 - count;
        let from = self.random.below(choices);
        let suits = |r: &usize| (0..count).all(|place| (registers[r + place] != 0) == (held == Some(place)));
        (from..from + choices).map(|choice| self.first + choice % choices).find(suits)
    }

    /// Small in most claims, so that many are for a value that is held.
    fn value(&mut self) -> u32 {
        match self.random.below(8) {
            0 => u32::MAX,
            1 => self.random.number32().max(1),
            _ => 1 + self.random.below(3) as u32,
        }
    }

    /// Leaves 0 in one of the registers, in a held one if there is any. Mostly it
    /// is the lowest, so that claims get past the first ones.
    fn freeing(&mut self, registers: &[u32; REGISTERS]) -> Operation {
        let from = if self.random.percent(70) { 0 } else { self.random.below(CLAIMED) };
        let place = |further| self.first + (from + further) % CLAIMED;
        let r = (0..CLAIMED).map(place).find(|r| registers[*r] != 0).unwrap_or(place(0));
        if self.random.percent(75) {
            Operation::new(SET, r as u8, 0, 0)
        } else {
            Operation::new(ADD, r as u8, 0, registers[r].wrapping_neg())
        }
    }

    /// A bad operation as it was drawn, or a bad claim in its place.
    pub fn bad_in_place_of(&mut self, drawn: Operation) -> Operation {
        if !self.random.percent(self.share) {
            return drawn;
        }
        let value = self.value();
        if self.random.percent(15) {
            let q = 1 + self.random.below(REGISTERS - 1);
            return Operation::new(CLAIM, self.random.below(REGISTERS) as u8, q as u8, value);
        }
        if self.random.percent(15) {
            let r = self.random.below(REGISTERS + 1 - MOST_TOGETHER);
            let q = r + self.random.below(MOST_TOGETHER);
            return Operation::new(CLAIM_TOGETHER, r as u8, q as u8, 0);
        }
        let (r, q) = self.bad_span();
        Operation::new(CLAIM_TOGETHER, r as u8, q as u8, value)
    }

    /// Registers that cannot be claimed together.
    fn bad_span(&mut self) -> (usize, usize) {
        let r = self.random.below(REGISTERS);
        let above = 1 + self.random.below(REGISTERS - 1);
        let low = self.random.below(REGISTERS - MOST_TOGETHER);
        let late = REGISTERS - 1 - self.random.below(MOST_TOGETHER - 1);
        match self.random.below(7) {
            0 => (late, REGISTERS + self.random.below(late + MOST_TOGETHER - REGISTERS)),
            1 => (r, REGISTERS + self.random.below(192)),
            2 => (REGISTERS + self.random.below(192), r),
            3 => (above, above - 1),
            4 => (above, self.random.below(above)),
            5 => (low, low + MOST_TOGETHER),
            _ => (low, low + MOST_TOGETHER + self.random.below(REGISTERS - MOST_TOGETHER - low)),
        }
    }
}
