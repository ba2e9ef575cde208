//! A call on a panel with its arguments.

use crate::replica::request::*;

#[derive(Clone, Copy, Debug, PartialEq, Eq)]
pub enum Call {
    Make(Operation, bool, Clock),
    Hear(Request),
    Settle(Number),
    Undo,
    CarryOut,
    RunDue,
    Register(u8),
    RequestAt(usize),
}
