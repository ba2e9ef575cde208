//! Short ways to write requests down in the tests, and to look at those held.

use mizzencord_compare::replica::panel::Panel;
use mizzencord_compare::replica::request::*;

pub fn read(r: u8) -> Operation {
    Operation::new(1, r, 0, 0)
}

pub fn set(r: u8, v: u32) -> Operation {
    Operation::new(2, r, 0, v)
}

pub fn add(r: u8, v: u32) -> Operation {
    Operation::new(3, r, 0, v)
}

pub fn claim(r: u8, v: u32) -> Operation {
    Operation::new(4, r, 0, v)
}

pub fn shift(r: u8, q: u8, v: u32) -> Operation {
    Operation::new(5, r, q, v)
}

pub fn claim_together(r: u8, q: u8, v: u32) -> Operation {
    Operation::new(6, r, q, v)
}

pub fn weak(panel: u8, event: u8, clock: u32, operation: Operation) -> Request {
    Request {
        number: Number::new(panel, event),
        clock: Clock(clock),
        operation,
        strong: false,
        context: NumberSet::EMPTY,
    }
}

pub fn strong(panel: u8, event: u8, clock: u32, operation: Operation, context: &[(u8, u8)]) -> Request {
    Request { strong: true, context: set_of(context), ..weak(panel, event, clock, operation) }
}

pub fn set_of(numbers: &[(u8, u8)]) -> NumberSet {
    let mut words = [0; 8];
    for &(panel, event) in numbers {
        words[panel as usize] |= 1u64 << (event - 1);
    }
    NumberSet(words)
}

pub fn panel(panels: u8, own: u8) -> Panel {
    let (refusal, panel) = Panel::fresh(panels, own);
    assert_eq!(refusal, 0);
    panel
}

pub fn order(panel: &Panel) -> Vec<(u8, u8)> {
    (1..=panel.accepted_requests()).map(|place| pair(panel.request_at(place).request.number)).collect()
}

/// The readings of a panel's requests that are held, by event.
pub fn readings(holder: &Panel, maker: u8) -> Vec<Clock> {
    let held = (1..=holder.accepted_requests()).map(|place| holder.request_at(place).request);
    let mut made: Vec<Request> = held.filter(|request| request.number.panel.0 == maker).collect();
    made.sort_by_key(|request| request.number.event);
    made.iter().map(|request| request.clock).collect()
}

pub fn pair(number: Number) -> (u8, u8) {
    (number.panel.0, number.event.0)
}
