//! Whether two panels accepted the same: the same requests in any order, field
//! for field, and the same settlements in the same order.

use crate::replica::request::*;

/// What is accepted up to a moment: how many of both, and a number that hardly
/// ever is the same for others.
#[derive(Clone, Copy, Debug, Default, PartialEq, Eq)]
pub struct State {
    pub requests: usize,
    pub settlements: usize,
    mixed: u64,
}

#[derive(Default)]
pub struct Fingerprint {
    state: State,
    requests: u64,
    settlements: u64,
}

impl Fingerprint {
    /// A sum, in which the order plays no part.
    pub fn add_request(&mut self, request: &Request) {
        self.requests = self.requests.wrapping_add(of_request(request));
        self.state.requests += 1;
    }

    pub fn add_settlement(&mut self, number: Number) {
        self.settlements = mix(self.settlements, 1 + number.slot() as u64);
        self.state.settlements += 1;
    }

    pub fn state(&self) -> State {
        State { mixed: mix(self.requests, self.settlements), ..self.state }
    }
}

/// Whether these are the same without a doubt.
pub fn accepted_same(one: (&[Request], &[Number]), other: (&[Request], &[Number])) -> bool {
    let sorted = |requests: &[Request]| {
        let mut sorted = requests.to_vec();
        sorted.sort_by_key(|request| request.number);
        sorted
    };
    one.1 == other.1 && sorted(one.0) == sorted(other.0)
}

fn of_request(request: &Request) -> u64 {
    let Operation { code, r, q, amount } = request.operation;
    let first = (request.number.slot() as u64) << 33 | (request.clock.0 as u64) << 1 | request.strong as u64;
    let second = (amount as u64) << 24 | (code as u64) << 16 | (r as u64) << 8 | q as u64;
    [first, second].iter().chain(&request.context.0).fold(0, |mixed, word| mix(mixed, *word))
}

fn mix(mixed: u64, word: u64) -> u64 {
    let mixed = (mixed ^ word).wrapping_add(0x9e37_79b9_7f4a_7c15).wrapping_mul(0xbf58_476d_1ce4_e5b9);
    (mixed ^ mixed >> 29).wrapping_mul(0x94d0_49bb_1331_11eb).rotate_left(31)
}
