//! Counts of what happens on a panel while it is given calls.

pub mod changes;
pub mod claims;
pub mod moves;

use crate::replica::call::Call;
use crate::replica::calls;
use crate::replica::panel::Panel;

pub trait Counting {
    /// Gives a panel a call that changes it, though not all due steps at once,
    /// and counts what it does.
    fn count_call(&mut self, panel: &mut Panel, call: &Call);

    /// Gives a panel a call that changes it and counts what it does, all due
    /// steps one by one.
    fn carry(&mut self, panel: &mut Panel, call: &Call) {
        if *call != Call::RunDue {
            return self.count_call(panel, call);
        }
        while panel.owed() > 0 {
            self.count_call(panel, &calls::due_step(panel));
        }
    }

    /// Counts what a list of calls does.
    fn count_calls(&mut self, bytes: &[u8]) {
        let mut panel = calls::fresh(bytes);
        calls::each(bytes).for_each(|call| self.carry(&mut panel, &calls::decode(call)));
    }

    /// Counts what the messages of a printout's input do.
    fn count_messages(&mut self, input: &[u8]) {
        let mut panel = calls::fresh(input);
        calls::of_messages(input).iter().for_each(|call| self.carry(&mut panel, call));
    }
}
