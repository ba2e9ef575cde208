//! Seeded shifts for panels that a library holds. Hear and settle go by structs
//! in one half of them and from bytes in the other, with other bytes around the
//! message; between them stand messages that are cut or damaged, and places
//! where none begins.

use crate::drawing::long_shift::long_calls;
use crate::drawing::messages::{self, damage_bytes};
use crate::drawing::random::Random;
use crate::drawing::shift::{self, Shift};
use crate::interface::memory::{Fill, Start};
use crate::panel_test::case::PanelCase;
use crate::panel_test::pair::Step;
use crate::replica::call::Call;
use crate::replica::wire::{self, Message};
use crate::shop_test::bus;

struct Drawing {
    random: Random,
    /// Whether hear and settle go by bytes.
    by_bytes: bool,
    /// How many percent of the calls come after trouble.
    trouble: usize,
    steps: Vec<(usize, Step)>,
}

impl Drawing {
    fn new(seed: u64) -> Drawing {
        let mut random = Random::new(seed);
        let by_bytes = random.percent(50);
        let trouble = random.one_of(&[0, 2, 10, 25]);
        Drawing { random, by_bytes, trouble, steps: Vec::new() }
    }

    fn start(&mut self) -> Start {
        let fill = match self.random.below(4) {
            0 => Fill::Byte(0),
            1 => Fill::Byte(0xaa),
            2 => Fill::Byte(0xff),
            _ => Fill::Random(self.random.word()),
        };
        Start { fill, odd: self.random.percent(50) }
    }

    fn case(mut self, shops: Vec<(u8, u8)>) -> PanelCase {
        PanelCase { start: self.start(), shops, steps: self.steps }
    }

    /// Adds a call of a panel; showing calls stand after every call anyway.
    fn add(&mut self, who: usize, call: Call) {
        if self.random.percent(1) {
            let odd = self.random.percent(50);
            let step = if self.random.percent(50) { Step::Copy(odd) } else { Step::Move(odd) };
            self.steps.push((who, step));
        }
        if self.random.percent(self.trouble) {
            let step = self.trouble(&call);
            self.steps.push((who, step));
        }
        let step = match message_of(&call) {
            _ if matches!(call, Call::Register(_) | Call::RequestAt(_)) => return,
            Some(message) if self.by_bytes => self.among_others(&message),
            _ => Step::Call(call),
        };
        self.steps.push((who, step));
    }

    /// Receives a message that has other bytes before and behind it.
    fn among_others(&mut self, message: &[u8]) -> Step {
        let mut bytes = self.other_bytes();
        let at = bytes.len();
        bytes.extend_from_slice(message);
        bytes.extend(self.other_bytes());
        Step::Receive(bytes, at)
    }

    /// None, some of any kind, or another message.
    fn other_bytes(&mut self) -> Vec<u8> {
        let mut bytes = Vec::new();
        match self.random.below(3) {
            0 => {}
            1 => bytes.extend((0..1 + self.random.below(20)).map(|_| self.random.byte())),
            _ => wire::append(&mut bytes, &messages::message(&mut self.random)),
        }
        bytes
    }

    /// A call that is drawn without regard to the panel: a message of any fields,
    /// or bytes from which mostly none can be read.
    fn trouble(&mut self, call: &Call) -> Step {
        if self.random.percent(30) {
            return match messages::message(&mut self.random) {
                Message::Request(request) if self.random.percent(30) => {
                    Step::Call(Call::Make(request.operation, request.strong, request.clock))
                }
                Message::Request(request) => Step::Call(Call::Hear(request)),
                Message::Settlement(number) => Step::Call(Call::Settle(number)),
            };
        }
        let message = message_of(call).unwrap_or_else(|| self.any_message());
        let Step::Receive(bytes, at) = self.among_others(&message) else { unreachable!("from bytes") };
        self.troubled(bytes, at, message.len())
    }

    fn any_message(&mut self) -> Vec<u8> {
        let mut bytes = Vec::new();
        wire::append(&mut bytes, &messages::message(&mut self.random));
        bytes
    }

    /// Bytes with a message at a place, and something wrong with them.
    fn troubled(&mut self, mut bytes: Vec<u8>, at: usize, length: usize) -> Step {
        let place = match self.random.below(9) {
            0 | 1 => {
                bytes.truncate(at + self.random.below(length + 1));
                at
            }
            2 | 3 => {
                bytes.truncate(at + length);
                if length > 0 {
                    damage_bytes(&mut self.random, &mut bytes, at);
                }
                at
            }
            4 => bytes.len(),
            5 => bytes.len() + 1 + self.random.below(90),
            6 => self.random.one_of(&[usize::MAX, usize::MAX - 5, (1 << 32) + at, (1 << 63) + at]),
            7 => self.random.below(bytes.len() + 1),
            _ => {
                bytes.clear();
                self.random.one_of(&[0, 1, 82])
            }
        };
        Step::Receive(bytes, place)
    }
}

/// The message that a call stands for, if there is one.
fn message_of(call: &Call) -> Option<Vec<u8>> {
    let message = match call {
        Call::Hear(request) => Message::Request(*request),
        Call::Settle(number) => Message::Settlement(*number),
        _ => return None,
    };
    let mut part = [0; wire::STRONG_LENGTH];
    let (refusal, length) = wire::write(&message, &mut part);
    (refusal == 0).then(|| part[..length].to_vec())
}

/// A shift of so many calls, at times of a bad shop.
pub fn shift(seed: u64, length: usize) -> PanelCase {
    let mut drawing = Drawing::new(seed);
    let mut shift = Shift::new(drawing.random.word());
    let shop = if drawing.random.percent(4) { shift::shop(&mut drawing.random) } else { shift.shop() };
    for _ in 0..length {
        drawing.add(0, shift.next_call());
    }
    if drawing.random.percent(50) {
        drawing.add(0, Call::RunDue);
    }
    drawing.case(vec![shop])
}

/// A shift whose order grows long before it changes.
pub fn long_shift(seed: u64) -> PanelCase {
    let mut drawing = Drawing::new(seed);
    let (panels, own, calls) = long_calls(drawing.random.word());
    calls.into_iter().for_each(|call| drawing.add(0, call));
    drawing.case(vec![(panels, own)])
}

/// The panels of a shop, each with its calls, which come in turns.
pub fn shop(seed: u64) -> PanelCase {
    let mut drawing = Drawing::new(seed);
    let shop = bus::draw(drawing.random.word()).shop;
    let mut left: Vec<_> = shop.histories.iter().map(|history| history.calls.iter()).collect();
    let mut busy: Vec<usize> = (0..left.len()).collect();
    while !busy.is_empty() {
        let chosen = drawing.random.below(busy.len());
        let who = busy[chosen];
        match left[who].next() {
            Some(call) => drawing.add(who, *call),
            None => drop(busy.swap_remove(chosen)),
        }
    }
    drawing.case(shop.histories.iter().map(|history| (shop.panels, history.own)).collect())
}
