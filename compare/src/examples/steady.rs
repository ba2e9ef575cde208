//! The messages of the examples `steady` and `late`: what two panels of one shop
//! got, of which one was on the bus all the time and one came back late.

use crate::replica::request::*;
use crate::replica::wire::append;
use crate::replica::wire::Message;

const PANELS_OF_THE_SHOP: u8 = 5;
const STEADY_PANEL: u8 = 3;
const LATE_PANEL: u8 = 4;

fn weak(panel: u8, event: u8, clock: u32, operation: (u8, u8, u8, u32)) -> Request {
    let (code, r, q, amount) = operation;
    Request {
        number: Number::new(panel, event),
        clock: Clock(clock),
        operation: Operation::new(code, r, q, amount),
        strong: false,
        context: NumberSet::EMPTY,
    }
}

fn strong(panel: u8, event: u8, clock: u32, operation: (u8, u8, u8, u32), context: &[(u8, u8)]) -> Request {
    let mut request = Request { strong: true, ..weak(panel, event, clock, operation) };
    for (panel, event) in context {
        request.context.insert(Number::new(*panel, *event).slot());
    }
    request
}

/// The requests, with ties at the clocks 10, 15, 20 and 25. Two of the strong ones
/// claim register 4, and the one that stands later in clock order is settled first.
fn requests() -> [Request; 12] {
    let known_to_1 = [(0, 1), (0, 2), (0, 3), (1, 1), (1, 2), (2, 1), (2, 2)];
    let known_to_0 = [(0, 1), (0, 2), (0, 3), (0, 4), (1, 1), (1, 2), (2, 1), (2, 2), (2, 3)];
    [
        weak(0, 1, 10, (SET, 0, 0, 9)),
        weak(1, 1, 10, (MOVE, 0, 1, 5)),
        weak(2, 1, 12, (CLAIM_TOGETHER, 2, 3, 7)),
        strong(0, 2, 15, (CLAIM, 4, 0, 1), &[(0, 1), (1, 1)]),
        weak(1, 2, 15, (ADD, 1, 0, 2)),
        strong(2, 2, 15, (CLAIM, 4, 0, 8), &[(2, 1)]),
        weak(0, 3, 18, (MOVE, 1, 4, 9)),
        strong(1, 3, 20, (CLAIM, 4, 0, 3), &known_to_1),
        weak(2, 3, 20, (SET, 2, 0, 0)),
        weak(0, 4, 22, (CLAIM_TOGETHER, 6, 7, 6)),
        strong(0, 5, 25, (MOVE, 6, 5, 4), &known_to_0),
        weak(1, 4, 25, (ADD, 7, 0, u32::MAX)),
    ]
}

/// A request by its place among the requests, or a settlement.
enum Got {
    Request(usize),
    Settled(u8, u8),
}

use Got::{Request as R, Settled as S};

/// Each request comes when it is made and each settlement soon after.
#[rustfmt::skip]
const STEADY: [Got; 15] = [
    R(0), R(1), R(2), R(3), R(4), R(5), S(2, 2), R(6),
    S(0, 2), R(7), R(8), R(9), S(1, 3), R(10), R(11),
];

/// After the first two the bus is away; then the newest come first.
#[rustfmt::skip]
const LATE: [Got; 15] = [
    R(0), R(1), R(11), R(10), R(9), R(8), R(7), R(5),
    R(2), S(2, 2), R(4), R(3), S(0, 2), R(6), S(1, 3),
];

pub fn steady_input() -> Vec<u8> {
    input(STEADY_PANEL, &STEADY)
}

pub fn late_input() -> Vec<u8> {
    input(LATE_PANEL, &LATE)
}

fn input(own: u8, got: &[Got]) -> Vec<u8> {
    let requests = requests();
    let mut bytes = vec![PANELS_OF_THE_SHOP, own];
    for message in got {
        let message = match message {
            R(place) => Message::Request(requests[*place]),
            S(panel, event) => Message::Settlement(Number::new(*panel, *event)),
        };
        append(&mut bytes, &message);
    }
    bytes
}
