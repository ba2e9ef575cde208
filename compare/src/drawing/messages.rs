//! Messages with any fields at all, and runs of them, sound and damaged.

use crate::drawing::random::Random;
use crate::replica::request::*;
use crate::replica::wire::{append, Message};

/// A message with any fields at all, as the reader and the writer take it. A
/// weak request may have a context, which the writer refuses.
pub fn message(random: &mut Random) -> Message {
    let number = Number::new(random.byte(), random.byte());
    if random.percent(25) {
        return Message::Settlement(number);
    }
    let strong = random.percent(50);
    let mut context = NumberSet::EMPTY;
    if strong || random.percent(10) {
        for word in context.0.iter_mut() {
            *word = random.word();
        }
    }
    Message::Request(Request {
        number,
        clock: Clock(random.number32()),
        operation: Operation::new(random.byte(), random.byte(), random.byte(), random.number32()),
        strong,
        context,
    })
}

/// A run of bus messages, at times damaged somewhere.
pub fn bus_run(random: &mut Random, messages: usize) -> Vec<u8> {
    let mut bytes = Vec::new();
    for _ in 0..messages {
        let start = bytes.len();
        append(&mut bytes, &message(random));
        if random.percent(12) && bytes.len() > start {
            damage_bytes(random, &mut bytes, start);
        }
    }
    if random.percent(25) {
        bytes.truncate(random.below(bytes.len() + 1));
    }
    bytes
}

/// Damages the message that starts at a place and ends the run.
pub fn damage_bytes(random: &mut Random, bytes: &mut Vec<u8>, start: usize) {
    let length = bytes.len() - start;
    match random.below(7) {
        0 => bytes[start] = random.one_of(&[0, 5, 6, 7, 17, 18, 19, 81, 82, 83, 255]),
        1 => bytes[start + 1] = random.one_of(&[1, 255]),
        2 => bytes[start + 2] = random.one_of(&[0, 1, 2, 3, 4, 255]),
        3 => bytes[start + 3] = random.one_of(&[1, 255]),
        4 if length > 13 => bytes[start + 13] = random.one_of(&[1, 128, 255]),
        5 => bytes.truncate(start + random.below(length)),
        _ => bytes[start + random.below(length)] = random.byte(),
    }
}
