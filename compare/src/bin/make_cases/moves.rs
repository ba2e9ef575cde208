//! Cases of moves, as inputs of the printout program and, because a printout
//! shows no response, once more as lists of calls.

use mizzencord_compare::replica::call::Call;
use mizzencord_compare::replica::request::*;
use mizzencord_compare::replica::wire::Message;

use crate::call_cases::{list, make, make_strong, read, settle, take};
use crate::in_turn::{done_twice, heard, named, one_by_one, with_reads};
use crate::{add, claim, set, shift, strong, weak, Cases};

const TOP: u32 = u32::MAX;

/// The cases of the printout program.
pub fn printouts(cases: &mut Cases) {
    for (name, operations) in all() {
        cases.add_messages(name, &heard(&operations));
    }
    cases.add_messages(INTO_ITSELF, &into_itself());
    cases.add_messages(CHAIN, &falling_chain());
}

/// The same as lists of calls, with single steps, and those of own moves.
pub fn lists(cases: &mut Cases) {
    for (name, operations) in all() {
        cases.add(name, done_twice(&heard(&operations), &named(&operations)));
    }
    cases.add(INTO_ITSELF, into_itself_made_and_heard());
    cases.add(CHAIN, with_reads(one_by_one(&falling_chain()), &named(&CHAIN_OF_MOVES)).into_bytes());
    own_moves(cases);
}

// ---- the cases

/// Names of cases and their operations, done one after another.
fn all() -> Vec<(String, Vec<Operation>)> {
    let single = SINGLE_MOVES.iter().map(|(asked, held, filled, words)| {
        let name = format!("a move of {asked} from {held} into {filled}: {words}");
        (name, vec![set(7, *held), set(8, *filled), shift(7, 8, *asked)])
    });
    let several = several_moves().map(|(name, operations)| (name.to_string(), operations));
    single.chain(several).collect()
}

/// The amount asked, what r and q hold, and what that is a case of.
const SINGLE_MOVES: [(u32, u32, u32, &str); 16] = [
    (5, 5, 0, "all that r holds"),
    (6, 5, 0, "one more than r holds"),
    (1, 5, TOP, "into a full register"),
    (9, 9, TOP - 5, "more than there is room"),
    (9, 9, TOP - 1, "into one short of the top"),
    (9, 9, TOP - 9, "just to the top"),
    (9, 9, TOP - 10, "to one short of the top"),
    (9, 9, TOP - 8, "one more than the room"),
    (3, 0, 0, "from an empty register"),
    (3, 0, TOP, "from an empty register into a full one"),
    (0, 5, 6, "nothing, between values"),
    (0, 0, 6, "nothing, from an empty register"),
    (0, 5, TOP, "nothing, into a full register"),
    (TOP, TOP, 0, "the highest amount into an empty register"),
    (TOP, TOP, 1, "the highest amount into one that holds 1"),
    (TOP, 1, 0, "the highest amount from one that holds 1"),
];

fn several_moves() -> [(&'static str, Vec<Operation>); 5] {
    [
        ("moves between the registers 0 and 63, both ways round", between_the_first_and_the_last()),
        ("reads, sets and adds that roll over around moves", reads_sets_and_adds()),
        (
            "a claim of a register that a move has emptied",
            vec![set(7, 5), shift(7, 8, 6), claim(7, 3), shift(7, 8, 2), claim(7, 4)],
        ),
        (
            "claims of registers that a move has filled, one of them to the top",
            vec![set(7, 5), shift(7, 8, 1), claim(8, 3), set(9, TOP - 1), shift(7, 9, 4), claim(9, 3)],
        ),
        (
            "one set among moves",
            vec![set(7, 5), set(8, 6), shift(7, 8, 2), set(8, 1), shift(8, 7, 9), shift(7, 8, 2)],
        ),
    ]
}

fn between_the_first_and_the_last() -> Vec<Operation> {
    vec![
        set(0, 7),
        set(63, 9),
        shift(0, 63, 4),
        shift(63, 0, 20),
        shift(63, 0, 1),
        set(63, TOP - 2),
        shift(0, 63, 16),
        shift(63, 0, TOP),
    ]
}

fn reads_sets_and_adds() -> Vec<Operation> {
    vec![
        set(7, 5),
        read(7),
        shift(7, 8, 3),
        read(7),
        read(8),
        add(7, TOP),
        shift(7, 8, 9),
        add(7, TOP),
        shift(7, 8, TOP),
        read(8),
        add(8, 2),
        shift(8, 9, 2),
        set(9, 4),
    ]
}

const INTO_ITSELF: &str = "moves from a register into itself, of 0, 1 and 4294967295";

/// Moves that are refused, weak and strong, between a set and a good move.
fn into_itself() -> Vec<Message> {
    let refused = [0, 1, TOP].into_iter().flat_map(|amount| {
        let operation = shift(9, 9, amount);
        [weak(0, 2, 20, operation), strong(1, 1, 20, operation, &[])]
    });
    let good = weak(0, 2, 20, shift(9, 8, 1));
    [weak(0, 1, 10, set(9, 5))].into_iter().chain(refused).chain([good]).collect()
}

fn into_itself_made_and_heard() -> Vec<u8> {
    let mut list = one_by_one(&into_itself());
    for amount in [0, 1, TOP] {
        list.add(&make(shift(9, 9, amount), 30));
        list.add(&make_strong(shift(9, 9, amount), 30));
    }
    list.add(&make(shift(9, 8, TOP), 30));
    list.add_due_steps();
    with_reads(list, &[8, 9]).into_bytes()
}

const CHAIN: &str = "a chain of moves behind two sets, heard in falling clock order";

const CHAIN_OF_MOVES: [Operation; 11] = [
    set(1, 10),
    set(2, TOP - 4),
    shift(1, 3, 6),
    shift(3, 4, 9),
    shift(4, 2, 6),
    shift(2, 5, TOP),
    shift(1, 5, 4),
    shift(5, 1, 1),
    shift(1, 5, 4),
    shift(4, 1, 0),
    shift(4, 1, 5),
];

/// Each stands before all that were heard, which are undone and done again.
fn falling_chain() -> Vec<Message> {
    heard(&CHAIN_OF_MOVES).into_iter().rev().collect()
}

/// An own strong move of 5 where 7 are, and behind it another panel's of 4 from
/// the same register.
fn own_moves(cases: &mut Cases) {
    let shop = (2, 0);
    let before = [
        take(weak(1, 1, 1, set(1, 7))),
        Call::CarryOut,
        make_strong(shift(1, 2, 5), 9),
        Call::CarryOut,
        take(strong(1, 2, 12, shift(1, 3, 4), &[(1, 1)])),
        Call::CarryOut,
    ];
    let redone = [Call::Undo, Call::Undo, Call::CarryOut, Call::CarryOut];
    let mut add_case = |name: &str, more: &[&[Call]]| {
        let calls = [&before, &more.concat()[..]].concat();
        let list = with_reads(list(shop, &calls), &[1, 2, 3]);
        let name = format!("an own strong move has the tentative response 5, {name}");
        cases.add(name, list.into_bytes());
    };
    add_case("settled in place", &[&[settle(0, 1)]]);
    add_case(
        "another's move is settled before it and it is settled where it then stands",
        &[&[settle(1, 2)], &redone, &[settle(0, 1)]],
    );
    add_case(
        "another's move is settled before it and it is settled before it is carried out again",
        &[&[settle(1, 2), settle(0, 1)], &redone],
    );
}
