//! The stored cases of moves, worked out by hand.

use mizzencord_compare::replica::printout::printout;

use crate::examples::{stored_cases, PRINTOUT};
use crate::moves::MOVES;
use crate::stored_lines::{answer, answered, lines, nothing, printed, read_and_reply, registers};

const TOP: u32 = 4_294_967_295;

/// 0/1 sets 7, 0/2 sets 8 and 0/3 moves; 2/1 and 2/2 read 7 and 8. Then 1/1
/// comes before all, which are undone and done again.
fn lines_of_a_single_move(moved: u32, left: u32, reached: u32) -> Vec<String> {
    let mut lines = Vec::new();
    for (event, response) in [(1, 0), (2, 0), (3, moved)] {
        lines.extend([nothing(), answer(0, (0, event), response)]);
    }
    lines.extend(read_and_reply((2, 1), 7, left));
    lines.extend(read_and_reply((2, 2), 8, reached));
    lines.push(nothing());
    lines.extend([(2, 2), (2, 1), (0, 3), (0, 2), (0, 1)].map(|number| answer(0, number, 0)));
    lines.extend([(1, 1), (0, 1), (0, 2)].map(|number| answer(0, number, 0)));
    lines.push(answer(0, (0, 3), moved));
    lines.extend([answer(0, (2, 1), left), answer(0, (2, 2), reached)]);
    lines
}

#[test]
fn the_stored_single_moves() {
    let mut stored = stored_cases(PRINTOUT);
    stored
        .retain(|(name, _)| name.starts_with("a move of ") && name.contains(" into ") && name.contains(": "));
    assert_eq!(stored.len(), 16);
    for (name, input) in stored {
        let asked = |([asked, held, filled], _): &&([u32; 3], _)| {
            name.starts_with(&format!("a move of {asked} from {held} into {filled}: "))
        };
        let (_, [moved, left, reached]) = MOVES.iter().find(asked).unwrap();
        assert_eq!(answered(&name), lines_of_a_single_move(*moved, *left, *reached), "{name}");
        let mut expected = vec!["board 3 2".to_string()];
        expected.extend((1..=3).map(|place| format!("{place} 1 0 {place} 0 0")));
        expected.push("settled 0 unsettled 3 undone 0 carried 3".into());
        expected.extend(registers(&[(7, *left), (8, *reached)]));
        assert_eq!(lines(printout(&input)), expected, "{name}");
    }
}

/// The responses in turn, and what the registers that are named hold at the end.
fn several(name: &str, responses: &[u32], values: &[(u8, u32)]) {
    let answered = answered(name);
    for ((event, response), calls) in (1..).zip(responses).zip(answered.chunks(2)) {
        assert_eq!(calls, [nothing(), answer(0, (0, event), *response)], "{name}, {event}");
    }
    for ((event, (r, value)), calls) in (1..).zip(values).zip(answered[2 * responses.len()..].chunks(2)) {
        assert_eq!(calls, read_and_reply((2, event), *r, *value), "{name}, {r}");
    }
    // All again, then the reads again, behind 1/1.
    let mut again: Vec<String> =
        (1..).zip(responses).map(|(event, response)| answer(0, (0, event), *response)).collect();
    again.extend((1..).zip(values).map(|(event, (_, value))| answer(0, (2, event), *value)));
    assert!(answered.ends_with(&again), "{name}");
    assert!(printed(name).ends_with(&registers(values)), "{name}");
}

#[test]
fn the_stored_lists_of_several_moves() {
    several(
        "moves between the registers 0 and 63, both ways round",
        &[0, 0, 4, 13, 0, 0, 2, TOP - 14],
        &[(0, TOP), (63, 14)],
    );
    several(
        "reads, sets and adds that roll over around moves",
        &[0, 5, 3, 2, 3, 1, 1, TOP, TOP - 4, TOP, 1, 1, 1],
        &[(7, 4), (8, 0), (9, 4)],
    );
    several("a claim of a register that a move has emptied", &[0, 5, 3, 2, 1], &[(7, 1), (8, 7)]);
    several(
        "claims of registers that a move has filled, one of them to the top",
        &[0, 1, 1, 0, 1, TOP],
        &[(7, 3), (8, 1), (9, TOP)],
    );
    several("one set among moves", &[0, 0, 2, 8, 1, 2], &[(7, 2), (8, 2)]);
}

#[test]
fn the_stored_moves_into_themselves() {
    let name = "moves from a register into itself, of 0, 1 and 4294967295";
    let mut expected = vec!["board 3 2".to_string(), "1 1 0 1 0 0".into()];
    for place in [2, 4, 6] {
        expected.extend([format!("{place} 1 0 2 3 0"), format!("{} 2 1 1 3 0", place + 1)]);
    }
    expected.extend(["8 1 0 2 0 0".into(), "settled 0 unsettled 2 undone 0 carried 2".into()]);
    expected.extend(registers(&[(8, 1), (9, 4)]));
    assert_eq!(printed(name), expected);
    let refused = || "3 0 0 0 0".to_string();
    let mut expected = vec![nothing(), answer(0, (0, 1), 0)];
    expected.extend((0..6).map(|_| refused()));
    expected.extend([nothing(), answer(0, (0, 2), 1)]);
    expected.extend((0..6).map(|_| refused()));
    // The own move of all there is moves 4 from 9 to 8.
    expected.push("0 0 0 0 0 18 0 1 0 2 1 30 0 0 0 5 9 8 0 255 255 255 255".into());
    expected.push(answer(1, (2, 1), 4));
    expected.extend(read_and_reply((2, 2), 8, 5));
    expected.extend(read_and_reply((2, 3), 9, 0));
    assert_eq!(answered(name), expected);
}

/// What the chain's eleven requests respond when they are done from the event
/// on: a move has nothing to move until 0/2 sets 2, and 0/1 then sets 1.
fn chain_responses(first: u8) -> Vec<u32> {
    match first {
        1 => vec![0, 0, 6, 6, 4, TOP, 0, 1, 1, 0, 2],
        2 => vec![0, 0, 0, 0, TOP - 4, 0, 1, 1, 0, 0],
        _ => vec![0; 12 - first as usize],
    }
}

#[test]
fn the_stored_chain() {
    let name = "a chain of moves behind two sets, heard in falling clock order";
    let mut printout = vec!["board 3 2".to_string()];
    let mut answers = Vec::new();
    for (place, first) in (1..).zip((1..=11).rev()) {
        printout.push(format!("{place} 1 0 {first} 0 {}", place - 1));
        answers.push(nothing());
        answers.extend((first + 1..=11).rev().map(|event| answer(0, (0, event), 0)));
        let responses = (first..).zip(chain_responses(first));
        answers.extend(responses.map(|(event, response)| answer(0, (0, event), response)));
    }
    printout.push("settled 0 unsettled 11 undone 55 carried 66".into());
    printout.extend(registers(&[(1, 6), (5, TOP)]));
    for (r, value) in [(1, 6), (2, 0), (3, 0), (4, 0), (5, TOP)] {
        answers.extend(read_and_reply((2, r), r, value));
    }
    assert_eq!(printed(name), printout);
    assert_eq!(answered(name), answers);
}

/// All begin with 1/1 that sets 1 to 7, own 0/1 that moves 5 of them to 2
/// at clock 9, and 1/2 that moves 4 of them to 3 but finds 2.
fn own_move(name: &str, more: &[String], values: [u32; 3]) {
    let context = format!("{}1{}", "0 ".repeat(8), " 0".repeat(55));
    let made = format!("0 0 0 0 0 82 0 2 0 0 1 9 0 0 0 5 1 2 0 5 0 0 0 {context}");
    let mut lines = vec![nothing(), answer(0, (1, 1), 0), made, answer(2, (0, 1), 5)];
    lines.extend([nothing(), answer(0, (1, 2), 2)]);
    lines.extend_from_slice(more);
    for (r, value) in (1..).zip(values) {
        lines.extend(read_and_reply((0, r + 1), r, value));
    }
    assert_eq!(answered(&format!("an own strong move has the tentative response 5, {name}")), lines);
}

#[test]
fn the_stored_own_moves() {
    own_move("settled in place", &[answer(3, (0, 0), 5)], [0, 5, 2]);
    let undone = [answer(0, (1, 2), 0), answer(0, (0, 1), 0)];
    let redone = |mark| [answer(0, (1, 2), 4), answer(mark, (0, 1), 3)];
    own_move(
        "another's move is settled before it and it is settled where it then stands",
        &[&[nothing()][..], &undone, &redone(2), &[answer(3, (0, 0), 3)]].concat(),
        [0, 3, 4],
    );
    own_move(
        "another's move is settled before it and it is settled before it is carried out again",
        &[&[nothing(), nothing()][..], &undone, &redone(3)].concat(),
        [0, 3, 4],
    );
}
