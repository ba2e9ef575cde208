//! Inputs of the printout program, those of the stored examples among them.

use crate::drawing::habits::{Clocks, Habits};
use crate::drawing::messages::damage_bytes;
use crate::drawing::random::Random;
use crate::drawing::shift::{shop, Shift};
use crate::drawing::shop::observed;
use crate::replica::printout::MOST_BYTES;
use crate::replica::request::*;
use crate::replica::wire::{append, Message};

/// An input of the printout program: mostly a good shop and messages that it
/// can take, else something cut short, damaged or too long.
pub fn printout_input(seed: u64) -> Vec<u8> {
    let mut random = Random::new(seed);
    if random.percent(3) {
        return (0..random.below(40)).map(|_| random.byte()).collect();
    }
    let (panels, own) = shop(&mut random);
    let mut bytes = vec![panels, own];
    if panels == 0 || panels as usize > PANELS || own >= panels {
        return bytes;
    }
    let too_long = random.below(400) == 0;
    let messages = random.one_of(&[3, 10, 40, 150, 400]);
    let mut shift = Shift::of_shop(Random::new(random.word()), panels, own);
    for _ in 0..messages {
        let start = bytes.len();
        append(&mut bytes, &shift.next_message());
        if random.below(500) == 0 && bytes.len() > start {
            damage_bytes(&mut random, &mut bytes, start);
        }
    }
    while too_long && bytes.len() <= MOST_BYTES {
        append(&mut bytes, &shift.next_message());
    }
    if random.percent(10) {
        bytes.truncate(2 + random.below(bytes.len() - 1));
    }
    bytes
}

/// An input of the printout program from a shop that works as it should, seen
/// by its last panel.
pub fn busy_input(seed: u64, panels: u8, requests: usize) -> Vec<u8> {
    input_of(panels, &observed(seed, panels, requests, 0))
}

/// The same from a shop in which most operations are about claims of
/// neighbours.
pub fn together_input(seed: u64, panels: u8, requests: usize) -> Vec<u8> {
    input_of(panels, &observed(seed, panels, requests, 75))
}

/// The input of a printout for the last panel of a shop.
fn input_of(panels: u8, messages: &[Message]) -> Vec<u8> {
    let mut bytes = vec![panels, panels - 1];
    messages.iter().for_each(|message| append(&mut bytes, message));
    bytes
}

/// An input of the printout program with tied clocks, much that is refused or
/// waits, and a message at the end whose spare byte is set.
pub fn awkward_input(seed: u64, panels: u8, own: u8, messages: usize) -> Vec<u8> {
    let mut bytes = vec![panels, own];
    let mut shift = Shift::of_shop(Random::new(seed), panels, own);
    shift.aim_at_nothing();
    shift.habits = Habits {
        clocks: Clocks::Tied,
        registers: 5,
        strong: 45,
        settlements: 40,
        damage: 16,
        waiting: 30,
        skips: 10,
        ..shift.habits
    };
    for _ in 1..messages {
        append(&mut bytes, &shift.next_message());
    }
    let last = bytes.len();
    append(&mut bytes, &Message::Request(Request::default()));
    bytes[last + 13] = 1;
    bytes
}
