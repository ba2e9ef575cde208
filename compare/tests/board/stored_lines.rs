//! The lines that stored cases print, and short ways to write such lines down.

use mizzencord_compare::replica::calls;
use mizzencord_compare::replica::printout::printout;

use crate::examples::{stored_case, CALLS, PRINTOUT};

pub fn lines(text: Vec<u8>) -> Vec<String> {
    String::from_utf8(text).unwrap().lines().map(String::from).collect()
}

pub fn printed(name: &str) -> Vec<String> {
    lines(printout(&stored_case(PRINTOUT, name)))
}

pub fn answered(name: &str) -> Vec<String> {
    lines(calls::printed(&stored_case(CALLS, name)))
}

pub fn nothing() -> String {
    answer(0, (0, 0), 0)
}

pub fn answer(mark: u8, (panel, event): (u8, u8), response: u32) -> String {
    format!("0 {mark} {panel} {event} {response}")
}

/// The make of a weak read at the highest clock, and its reply.
pub fn read_and_reply((panel, event): (u8, u8), r: u8, value: u32) -> [String; 2] {
    let made = format!("0 0 0 0 0 18 0 1 0 {panel} {event} 255 255 255 255 1 {r} 0 0 0 0 0 0");
    [made, answer(1, (panel, event), value)]
}

/// The register lines of a printout.
pub fn registers(values: &[(u8, u32)]) -> Vec<String> {
    let held = values.iter().filter(|(_, value)| *value != 0);
    held.map(|(r, value)| format!("register {r} {value}")).collect()
}
