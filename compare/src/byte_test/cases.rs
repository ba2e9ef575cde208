//! Seeded cases for comparisons, most of them sound and some damaged.

use crate::byte_test::difference::{Case, Function};
use crate::byte_test::fields::{self, FIELDS_SIZE};
use crate::drawing::inputs::printout_input;
use crate::drawing::long_shift::{long_calls, long_input};
use crate::drawing::messages::{bus_run, message};
use crate::drawing::random::Random;
use crate::drawing::shift::{shop, Shift};
use crate::interface::board::MOST_PRINTED;
use crate::replica::call::Call;
use crate::replica::calls::{self, List, ANSWER_SIZE, CALL_SIZE};
use crate::replica::request::*;
use crate::replica::wire::{self, Parsed};

/// How many registers are read at the end of a list of calls.
const PROBES: usize = 8;

/// A list of about so many calls: a shift of them, at times damaged.
pub fn list_of_calls(seed: u64, length: usize) -> Case {
    let mut random = Random::new(seed);
    let mut bytes = if random.percent(4) { noise(&mut random, length) } else { shift(&mut random, length) };
    if random.percent(15) {
        damage_list(&mut random, &mut bytes);
    }
    let needed = calls::count(&bytes) * ANSWER_SIZE;
    let room = if random.percent(2) { random.below(needed + 1) } else { needed + random.below(100) };
    Case { function: Function::Run, bytes, at: 0, room }
}

/// A shift of calls, and what it leads to.
fn shift(random: &mut Random, length: usize) -> Vec<u8> {
    let mut shift = Shift::new(random.word());
    let (panels, own) = shift.shop();
    let mut list = List::new(panels, own);
    let wide = random.one_of(&[0, 0, 0, 5, 30]);
    while calls::count(list.bytes()) < length {
        match shift.next_call() {
            Call::RunDue if random.percent(50) => list.add_due_steps(),
            Call::Hear(request) if request.strong && random.percent(wide) => {
                list.add(&Call::Hear(waiting_for_several(random, panels, request)));
            }
            call => list.add(&call),
        }
    }
    with_probes(random, list)
}

/// The calls, due steps until idle, and then what some registers hold.
fn with_probes(random: &mut Random, mut list: List) -> Vec<u8> {
    list.add_due_steps();
    for _ in 0..PROBES {
        let read = Operation::new(READ, random.below(REGISTERS) as u8, 0, 0);
        list.add(&Call::Make(read, false, Clock(u32::MAX)));
        list.add_due_steps();
    }
    list.into_bytes()
}

/// A long shift of calls.
pub fn long_list_of_calls(seed: u64) -> Case {
    let mut random = Random::new(seed);
    let (panels, own, calls) = long_calls(random.word());
    let mut list = List::new(panels, own);
    calls.iter().for_each(|call| list.add(call));
    let bytes = with_probes(&mut random, list);
    let room = calls::count(&bytes) * ANSWER_SIZE;
    Case { function: Function::Run, bytes, at: 0, room }
}

/// A strong request whose context names a few numbers more.
fn waiting_for_several(random: &mut Random, panels: u8, mut request: Request) -> Request {
    for _ in 0..2 + random.below(4) {
        let number = Number::new(random.below(panels as usize) as u8, 1 + random.below(EVENTS) as u8);
        if number != request.number {
            request.context.insert(number.slot());
        }
    }
    request
}

/// Bytes that mean nothing, with tags that mean something at times.
fn noise(random: &mut Random, calls: usize) -> Vec<u8> {
    let (panels, own) = shop(random);
    let mut bytes = vec![panels, own];
    for _ in 0..calls {
        bytes.push(random.one_of(&[0, 1, 2, 3, 4, 255]));
        bytes.extend((1..CALL_SIZE).map(|_| random.byte()));
    }
    bytes.truncate(random.below(bytes.len() + 1));
    bytes
}

fn damage_list(random: &mut Random, bytes: &mut Vec<u8>) {
    if bytes.is_empty() {
        return;
    }
    match random.below(5) {
        0 => bytes.truncate(random.below(bytes.len() + 1)),
        1 => (bytes[0], _) = shop(random),
        2 => {
            let at = random.below(bytes.len());
            bytes.remove(at);
        }
        _ => {
            for _ in 0..1 + random.below(8) {
                let at = random.below(bytes.len());
                bytes[at] = random.byte();
            }
        }
    }
}

/// A printout, now and then with too few bytes lent.
pub fn printed(seed: u64) -> Case {
    let mut random = Random::new(seed);
    let input = printout_input(random.word());
    let room = if random.percent(2) { random.below(MOST_PRINTED) } else { MOST_PRINTED + random.below(100) };
    Case { function: Function::Print, bytes: input, at: 0, room }
}

/// The printout of a long shift.
pub fn long_printed(seed: u64) -> Case {
    Case { function: Function::Print, bytes: long_input(seed), at: 0, room: MOST_PRINTED }
}

/// Reading each message of a run up to its end, and then at places where none
/// need begin.
pub fn readings(seed: u64) -> Vec<Case> {
    let mut random = Random::new(seed);
    let bytes = bus_run(&mut random, 8);
    let mut places = vec![0];
    while let Parsed::Message(_, taken) = wire::parse(&bytes, places[places.len() - 1]) {
        places.push(places[places.len() - 1] + taken);
    }
    places.extend([random.below(bytes.len() + 2), random.below(bytes.len() + 2), usize::MAX]);
    let read = |at| Case { function: Function::Read, bytes: bytes.clone(), at, room: 0 };
    places.into_iter().map(read).collect()
}

/// Writing the message of some fields, which may be damaged.
pub fn writing(seed: u64) -> Case {
    let mut random = Random::new(seed);
    let mut bytes = vec![0; FIELDS_SIZE];
    if random.percent(10) {
        bytes.fill_with(|| random.byte());
    } else {
        bytes.copy_from_slice(&fields::of_message(&(&message(&mut random)).into()));
    }
    if random.percent(10) {
        let at = random.below(bytes.len());
        bytes[at] = random.byte();
    }
    let enough = wire::STRONG_LENGTH;
    let room = if random.percent(10) { random.below(enough) } else { enough + random.below(8) };
    Case { function: Function::Write, bytes, at: 0, room }
}
