//! Operations that are done one after another, as messages and as lists of
//! calls.

use mizzencord_compare::replica::call::Call;
use mizzencord_compare::replica::calls::List;
use mizzencord_compare::replica::request::*;
use mizzencord_compare::replica::wire::Message;

use crate::call_cases::{make, read, step_by_step, take};
use crate::{weak, SHOP};

/// The operations as requests of panel 0, each ten behind the one before.
pub fn heard(operations: &[Operation]) -> Vec<Message> {
    let request = |event: u8, operation: &Operation| weak(0, event, 10 * event as u32, *operation);
    (1..).zip(operations).map(|(event, operation)| request(event, operation)).collect()
}

/// The registers that operations name.
pub fn named(operations: &[Operation]) -> Vec<u8> {
    let registers = |operation: &Operation| match operation.code {
        MOVE => vec![operation.r, operation.q],
        CLAIM_TOGETHER => (operation.r..=operation.q).collect(),
        _ => vec![operation.r],
    };
    let mut named: Vec<u8> = operations.iter().flat_map(registers).collect();
    named.sort();
    named.dedup();
    named
}

/// The messages with the single steps that are due after each.
pub fn one_by_one(messages: &[Message]) -> List {
    let calls: Vec<Call> = messages.iter().map(|message| take(*message)).collect();
    step_by_step((SHOP[0], SHOP[1]), &calls)
}

/// The list and reads of some registers at the highest clock.
pub fn with_reads(mut list: List, registers: &[u8]) -> List {
    for register in registers {
        list.add(&make(read(*register), u32::MAX));
        list.add_due_steps();
    }
    list
}

/// The messages one by one and reads of some registers, and then a request that
/// stands before all, so that all is undone and done once more.
pub fn done_twice(messages: &[Message], registers: &[u8]) -> Vec<u8> {
    let mut list = with_reads(one_by_one(messages), registers);
    list.add(&take(weak(1, 1, 0, read(0))));
    list.add_due_steps();
    list.into_bytes()
}
