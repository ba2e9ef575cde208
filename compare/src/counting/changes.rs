//! Where calls change long orders: how much of a long executed list they leave.

use crate::counting::Counting;
use crate::replica::call::Call;
use crate::replica::calls;
use crate::replica::panel::Panel;

/// How many executed requests make an order long.
pub const LONG: usize = 200;

/// A change that leaves fewer than these is at the front, and one that undoes
/// fewer is near the end.
pub const NEAR: usize = 10;

/// How many calls changed a long order, by the place.
#[derive(Clone, Copy, Debug, Default, PartialEq, Eq)]
pub struct LongChanges {
    pub front: usize,
    pub middle: usize,
    pub end: usize,
}

impl Counting for LongChanges {
    fn count_call(&mut self, panel: &mut Panel, call: &Call) {
        let executed = panel.executed().len();
        calls::carry(panel, call);
        self.count(executed, panel.executed().len());
    }
}

impl LongChanges {
    fn count(&mut self, executed: usize, left: usize) {
        if executed < LONG || left >= executed {
            return;
        }
        if left < NEAR {
            self.front += 1;
        } else if executed - left < NEAR {
            self.end += 1;
        } else {
            self.middle += 1;
        }
    }
}
