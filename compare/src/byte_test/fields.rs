//! The message that a writer is given, as the bytes of a case: two bytes each
//! for whether it settles and whether it is strong, and then the rest of a strong
//! message's bytes. A settlement has all these fields too, though they stand for
//! nothing.

use crate::interface::header::*;

pub const FIELDS_SIZE: usize = 82;

const SETTLES: usize = 0;
const STRONG: usize = 2;
const PANEL: usize = 4;
const EVENT: usize = 5;
const CLOCK: usize = 6;
const CODE: usize = 10;
const R: usize = 11;
const Q: usize = 12;
const AMOUNT: usize = 14;
const CONTEXT: usize = 18;

pub fn of_message(message: &Message) -> [u8; FIELDS_SIZE] {
    let mut fields = [0; FIELDS_SIZE];
    let request = &message.request;
    fields[SETTLES] = message.settles;
    fields[STRONG] = request.asked.strong;
    fields[PANEL] = request.number.panel;
    fields[EVENT] = request.number.event;
    fields[CLOCK..CODE].copy_from_slice(&request.clock.to_le_bytes());
    fields[CODE] = request.asked.code;
    fields[R] = request.asked.r;
    fields[Q] = request.asked.q;
    fields[AMOUNT..CONTEXT].copy_from_slice(&request.asked.amount.to_le_bytes());
    for (word, bytes) in request.context.iter().zip(fields[CONTEXT..].chunks_exact_mut(8)) {
        bytes.copy_from_slice(&word.to_le_bytes());
    }
    fields
}

/// The message of these fields; a byte that is not there is 0.
pub fn message(bytes: &[u8]) -> Message {
    let mut fields = [0; FIELDS_SIZE];
    let there = bytes.len().min(FIELDS_SIZE);
    fields[..there].copy_from_slice(&bytes[..there]);
    let mut context = [0; 8];
    for (word, bytes) in context.iter_mut().zip(fields[CONTEXT..].chunks_exact(8)) {
        *word = u64::from_le_bytes(bytes.try_into().expect("chunks of eight"));
    }
    let asked = Asked {
        amount: u32_at(&fields, AMOUNT),
        code: fields[CODE],
        r: fields[R],
        q: fields[Q],
        strong: flag_at(&fields, STRONG),
    };
    let number = Number { panel: fields[PANEL], event: fields[EVENT] };
    let behind = Nothing::default();
    let request = Request { context, asked, clock: u32_at(&fields, CLOCK), number, behind };
    Message { settles: flag_at(&fields, SETTLES), request }
}

/// Every number but 0 stands for 1.
fn flag_at(fields: &[u8], at: usize) -> u8 {
    (fields[at] != 0 || fields[at + 1] != 0) as u8
}

fn u32_at(fields: &[u8], at: usize) -> u32 {
    u32::from_le_bytes(fields[at..at + 4].try_into().expect("four bytes"))
}
