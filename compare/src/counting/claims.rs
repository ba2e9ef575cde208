//! What becomes of the claims of neighbouring registers.

use crate::counting::Counting;
use crate::replica::call::Call;
use crate::replica::calls;
use crate::replica::panel::Panel;
use crate::replica::refusal::ACCEPTED;
use crate::replica::request::*;

/// How many claims of code 6 were carried out and undone.
#[derive(Clone, Copy, Debug, Default, PartialEq, Eq)]
pub struct ClaimOutcomes {
    /// Those that took all, by how many registers that is, one first.
    pub took: [usize; MOST_TOGETHER],
    /// Those that found one held, by the place of the lowest held among those
    /// claimed.
    pub held: [usize; MOST_TOGETHER],
    /// Those that were undone after they had taken.
    pub undone: usize,
}

impl Counting for ClaimOutcomes {
    fn count_call(&mut self, panel: &mut Panel, call: &Call) {
        let before = *panel.registers();
        let answer = calls::carry(panel, call);
        if !matches!(call, Call::Undo | Call::CarryOut) || answer.refusal != ACCEPTED {
            return;
        }
        let operation = panel.request(answer.number.slot()).operation;
        if operation.code != CLAIM_TOGETHER {
            return;
        }
        if *call == Call::Undo {
            self.undone += (*panel.registers() != before) as usize;
        } else {
            self.count(&before[operation.r as usize..=operation.q as usize]);
        }
    }
}

impl ClaimOutcomes {
    /// Counts a claim of registers that held these values.
    fn count(&mut self, claimed: &[u32]) {
        match claimed.iter().position(|value| *value != 0) {
            Some(place) => self.held[place] += 1,
            None => self.took[claimed.len() - 1] += 1,
        }
    }
}
