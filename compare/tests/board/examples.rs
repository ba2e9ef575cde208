//! The stored inputs and outputs.

use std::fs;
use std::path::Path;

use mizzencord_compare::examples::two_panels;
use mizzencord_compare::replica::calls;
use mizzencord_compare::replica::printout::printout;
use mizzencord_compare::replica::wire::{parse, Parsed};

use crate::{naive, worked};

pub fn stored(name: &str) -> Vec<u8> {
    stored_in("../examples", name)
}

fn stored_in(folder: &str, name: &str) -> Vec<u8> {
    fs::read(Path::new(env!("CARGO_MANIFEST_DIR")).join(folder).join(name)).unwrap()
}

#[test]
fn stored_outputs_are_printed_again() {
    for name in ["worked", "busy", "awkward", "together", "steady", "late"] {
        let input = stored(&format!("{name}.bin"));
        let output = stored(&format!("{name}.out"));
        assert!(printout(&input) == output, "{name}");
        assert!(naive::printout(&input).as_bytes() == output, "{name}");
    }
    assert!(stored("worked.bin") == worked::INPUT);
}

/// The lines that the example in C must print.
#[test]
fn the_lines_of_the_two_panels_are_told_again() {
    assert_eq!(two_panels::printed().as_bytes(), stored("panel/expected.txt"));
}

/// Two panels of one shop that got the same messages at different times: what
/// they hold, worked out by hand, and not what they did for it.
#[test]
fn the_steady_panel_and_the_late_one_agree() {
    let inputs = ["steady.bin", "late.bin"].map(stored);
    let messages = inputs.each_ref().map(|input| sorted_messages(input));
    assert_eq!(messages[0].len(), 15);
    assert_eq!(messages[0], messages[1]);
    assert_eq!(inputs.each_ref().map(|input| (input[0], input[1])), [(5, 3), (5, 4)]);
    assert!(messages[0].iter().all(|message| message[4] < 3), "panels 3 and 4 make nothing");
    let texts = ["steady.out", "late.out"].map(|name| String::from_utf8(stored(name)).unwrap());
    let held = "settled 8 unsettled 4 undone ";
    let registers = [(0, 4), (3, 7), (4, 15), (5, 4), (6, 2), (7, 5)];
    let registers: String = registers.map(|(r, value)| format!("register {r} {value}\n")).concat();
    let done = texts.each_ref().map(|text| {
        let (messages, end) = text.split_once(held).unwrap();
        assert!(messages.lines().skip(1).all(|line| line.split(' ').nth(4) == Some("0")));
        let (done, shown) = end.split_once('\n').unwrap();
        assert_eq!(shown, registers);
        done
    });
    assert_eq!(done, ["6 carried 18", "46 carried 58"]);
}

fn sorted_messages(input: &[u8]) -> Vec<Vec<u8>> {
    let mut messages = Vec::new();
    let mut at = 2;
    while let Parsed::Message(_, taken) = parse(input, at) {
        messages.push(input[at..at + taken].to_vec());
        at += taken;
    }
    messages.sort();
    messages
}

#[test]
fn the_stored_program_output_is_printed_again() {
    let input = stored_in("../crates/printout", "stdin");
    let output = stored_in("../crates/printout", "stdout");
    assert!(printout(&input) == output);
    assert!(naive::printout(&input).as_bytes() == output);
}

/// The sorts of stored cases.
pub const PRINTOUT: u8 = b'p';
pub const CALLS: u8 = b'c';

/// Both must print the stored output.
#[test]
fn stored_cases_are_printed_again() {
    let mut printed = Vec::new();
    for StoredCase { name, sort, bytes } in all_stored_cases() {
        let (text, naive) = match sort {
            PRINTOUT => (printout(&bytes), naive::printout(&bytes)),
            CALLS => (calls::printed(&bytes), naive::answers(&bytes)),
            _ => panic!("{name} is of the sort {sort}"),
        };
        assert!(naive.as_bytes() == text, "{name}");
        printed.extend_from_slice(name.as_bytes());
        printed.push(b'\n');
        printed.extend_from_slice(&text);
    }
    assert!(printed == stored_in(CASES, "stdout"));
}

/// The bytes of the stored case of a sort with this name.
pub fn stored_case(sort: u8, name: &str) -> Vec<u8> {
    let found = stored_cases(sort).into_iter().find(|case| case.0 == name);
    found.unwrap_or_else(|| panic!("no case is named {name}")).1
}

/// Name and bytes of each stored case of a sort.
pub fn stored_cases(sort: u8) -> Vec<(String, Vec<u8>)> {
    let cases = all_stored_cases().into_iter();
    cases.filter(|case| case.sort == sort).map(|case| (case.name, case.bytes)).collect()
}

struct StoredCase {
    name: String,
    sort: u8,
    bytes: Vec<u8>,
}

const CASES: &str = "../crates/cases";

fn all_stored_cases() -> Vec<StoredCase> {
    let bytes = stored_in(CASES, "stdin");
    let mut rest = bytes.as_slice();
    let mut cases = Vec::new();
    while !rest.is_empty() {
        let name = String::from_utf8(part(&mut rest).to_vec()).unwrap();
        let sort = part(&mut rest);
        assert_eq!(sort.len(), 1, "{name}");
        cases.push(StoredCase { name, sort: sort[0], bytes: part(&mut rest).to_vec() });
    }
    cases
}

/// The next part of the stored cases: its length in three bytes, and then it.
fn part<'a>(rest: &mut &'a [u8]) -> &'a [u8] {
    let length = u32::from_le_bytes([rest[0], rest[1], rest[2], 0]) as usize;
    let (part, behind) = rest[3..].split_at(length);
    *rest = behind;
    part
}
