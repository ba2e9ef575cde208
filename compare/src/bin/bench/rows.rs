//! A row of the first table, and what several kinds of rows are made of.

use std::sync::Arc;

use mizzencord_compare::replica::wire::append;
use mizzencord_compare::replica::wire::Message;

use crate::limits::Limits;
use crate::sampling::time_of;
use crate::shift::Shift;
use crate::times::Times;
use crate::work::{Given, Work};

/// The requests that a panel can hear, and make.
pub const MOST_HEARD: usize = 448;
pub const MOST_OWN: usize = 64;

/// The work, its times and how much the ratios may be.
pub struct Row {
    pub work: String,
    pub times: Times,
    pub limits: Limits,
}

impl Row {
    pub fn new(work: &str, times: Times, limits: Limits) -> Row {
        Row { work: work.into(), times, limits }
    }

    /// A row of single calls, by the call.
    pub fn a_call(what: &str, work: &Work, limits: Limits) -> Row {
        Row::new(what, time_of(what, work).over(work.calls()), limits)
    }
}

/// The calls of a shift, each followed by all due steps, in all its orders.
pub fn work_of(shift: &Shift) -> Work {
    Work::in_turn(shift.orders().iter().map(|shift| Work::new(&[], &shift.calls_to_idle(), 0)))
}

/// Each message received in bytes of its own.
pub fn received_alone(messages: &[Message]) -> Vec<Given> {
    let alone = |message: &Message| {
        let mut bytes = Vec::new();
        append(&mut bytes, message);
        Given::Receive(bytes.into(), 0)
    };
    messages.iter().map(alone).collect()
}

/// Each message received at its place of one buffer.
pub fn received_from_a_buffer(messages: &[Message]) -> Vec<Given> {
    let mut bytes = Vec::new();
    let mut places = Vec::new();
    for message in messages {
        places.push(bytes.len());
        append(&mut bytes, message);
    }
    let bytes: Arc<[u8]> = bytes.into();
    places.into_iter().map(|at| Given::Receive(bytes.clone(), at)).collect()
}
