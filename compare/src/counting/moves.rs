//! Which limit decides how much the moves move.

use crate::counting::Counting;
use crate::replica::call::Call;
use crate::replica::calls;
use crate::replica::panel::Panel;
use crate::replica::refusal::ACCEPTED;
use crate::replica::request::*;

/// How many moves were carried out, by the limit that decided.
#[derive(Clone, Copy, Debug, Default, PartialEq, Eq)]
pub struct MoveLimits {
    /// The amount asked, where no other limit is lower.
    pub asked: usize,
    /// What r held, where the room is no lower.
    pub held: usize,
    pub room: usize,
    /// Those of any limit that left q at the top.
    pub at_the_top: usize,
}

impl Counting for MoveLimits {
    fn count_call(&mut self, panel: &mut Panel, call: &Call) {
        let before = *panel.registers();
        let answer = calls::carry(panel, call);
        if *call != Call::CarryOut || answer.refusal != ACCEPTED {
            return;
        }
        let operation = panel.request(answer.number.slot()).operation;
        if operation.code == MOVE {
            self.count(&operation, &before);
            self.at_the_top += (panel.registers()[operation.q as usize] == u32::MAX) as usize;
        }
    }
}

impl MoveLimits {
    fn count(&mut self, operation: &Operation, before: &[u32; REGISTERS]) {
        let held = before[operation.r as usize];
        let room = u32::MAX - before[operation.q as usize];
        if operation.amount <= held.min(room) {
            self.asked += 1;
        } else if held <= room {
            self.held += 1;
        } else {
            self.room += 1;
        }
    }
}
