//! The operations of a drawn shift: good ones, some aimed at what the registers
//! hold, and bad ones.

use crate::drawing::aims::Aim;
use crate::drawing::shift::Shift;
use crate::replica::request::*;

impl Shift {
    pub(super) fn operation(&mut self) -> Operation {
        if self.random.percent(self.habits.damage / 2) {
            return self.bad_operation();
        }
        let drawn = self.good_operation();
        self.claims.in_place_of(drawn, &self.shadow)
    }

    fn good_operation(&mut self) -> Operation {
        let r = self.random.below(self.habits.registers) as u8;
        match self.random.one_of(&[READ, SET, SET, ADD, ADD, CLAIM, MOVE, MOVE]) {
            READ => Operation::new(READ, r, 0, 0),
            SET => Operation::new(SET, r, 0, self.amount()),
            ADD => Operation::new(ADD, r, 0, self.amount()),
            CLAIM => Operation::new(CLAIM, r, 0, self.amount().max(1)),
            _ => {
                let further = 1 + self.random.below(self.habits.registers - 1);
                let q = (r as usize + further) % self.habits.registers;
                let drawn = Operation::new(MOVE, r, q as u8, self.amount());
                self.aimed_move(drawn)
            }
        }
    }

    /// The move as it is drawn, or aimed at a limit by what the registers hold
    /// now, from its r and q on at the first two that suit.
    fn aimed_move(&mut self, drawn: Operation) -> Operation {
        if !self.aims.percent(self.habits.aimed) {
            return drawn;
        }
        let (aim, any) = (self.aims.one_of(&Aim::DRAWN), self.aims.number32());
        let (used, registers) = (self.habits.registers, self.shadow.registers());
        let first = drawn.r as usize * used + drawn.q as usize;
        let pairs = (first..first + used * used).map(|place| (place / used % used, place % used));
        let found = pairs.filter(|(r, q)| r != q).find_map(|(r, q)| {
            let amount = aim.amount(registers[r], u32::MAX - registers[q], any);
            amount.map(|amount| Operation::new(MOVE, r as u8, q as u8, amount))
        });
        found.unwrap_or(drawn)
    }

    fn amount(&mut self) -> u32 {
        match self.random.below(8) {
            0 => 0,
            1 => u32::MAX,
            2 => u32::MAX - self.random.below(8) as u32,
            3 => self.random.number32(),
            _ => self.random.below(8) as u32,
        }
    }

    pub(super) fn bad_operation(&mut self) -> Operation {
        let drawn = self.bad_single_operation();
        self.claims.bad_in_place_of(drawn)
    }

    fn bad_single_operation(&mut self) -> Operation {
        let r = self.random.below(REGISTERS) as u8;
        let over = 64 + self.random.below(192) as u8;
        match self.random.below(8) {
            0 => Operation::new(self.random.one_of(&[0, 7, 255]), r, 0, 0),
            1 => Operation::new(self.random.one_of(&[READ, SET, ADD, CLAIM, MOVE]), over, 0, 0),
            2 => Operation::new(MOVE, r, over, 1),
            3 => Operation::new(
                self.random.one_of(&[READ, SET, ADD, CLAIM]),
                r,
                1 + self.random.below(63) as u8,
                0,
            ),
            4 => Operation::new(READ, r, 0, 1),
            5 => Operation::new(CLAIM, r, 0, 0),
            6 => Operation::new(MOVE, r, r, 0),
            _ => Operation::new(
                self.random.byte(),
                self.random.byte(),
                self.random.byte(),
                self.random.number32(),
            ),
        }
    }
}
