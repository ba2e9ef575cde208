//! Cases of claims of neighbouring registers, as inputs of the printout program
//! and, because a printout shows no response, once more as lists of calls.

use mizzencord_compare::replica::call::Call;
use mizzencord_compare::replica::request::*;
use mizzencord_compare::replica::wire::Message;

use crate::call_cases::{list, make, make_strong, read, settle, take};
use crate::in_turn::{done_twice, heard, named, one_by_one, with_reads};
use crate::{add, claim, claim_together, set, settlement, shift, strong, weak, Cases};

const TOP: u32 = u32::MAX;

/// The cases of the printout program.
pub fn printouts(cases: &mut Cases) {
    for (name, operations) in all() {
        cases.add_messages(name, &heard(&operations));
    }
    for (name, messages) in reordered() {
        cases.add_messages(name, &messages);
    }
    for (name, messages) in settled() {
        cases.add_messages(name, &messages);
    }
    for (name, messages) in heard_again() {
        cases.add_messages(name, &messages);
    }
    for operation in bad() {
        cases.add_messages(bad_name(&operation), &refused(&operation));
    }
}

/// The same as lists of calls, with single steps, and those of own claims.
pub fn lists(cases: &mut Cases) {
    for (name, operations) in all() {
        cases.add(name, done_twice(&heard(&operations), &named(&operations)));
    }
    for (name, messages) in reordered().into_iter().chain(settled()).chain(heard_again()) {
        cases.add(name, with_reads(one_by_one(&messages), &named(&operations_of(&messages))).into_bytes());
    }
    for operation in bad() {
        cases.add(bad_name(&operation), made_and_heard(&operation));
    }
    own_claims_that_take(cases);
    own_claims_that_fail(cases);
    own_claims_of_one(cases);
}

/// The operations of the requests among messages.
fn operations_of(messages: &[Message]) -> Vec<Operation> {
    let operation = |message: &Message| match message {
        Message::Request(request) => Some(request.operation),
        Message::Settlement(_) => None,
    };
    messages.iter().filter_map(operation).collect()
}

// ---- claims in turn

/// Names of cases and their operations, done one after another.
fn all() -> Vec<(String, Vec<Operation>)> {
    let single = SINGLE_CLAIMS.iter().map(single_claim);
    let pairs = ONE_REGISTER.iter().flat_map(|(r, held, v)| one_register(*r, *held, *v));
    let several = several_claims().map(|(name, operations)| (name.to_string(), operations));
    single.chain(pairs).chain(several).collect()
}

/// The registers claimed, for what, what is held before, the response and
/// whether it takes.
type Claim = ([u8; 2], u32, &'static [(u8, u32)], u32, bool);

const SINGLE_CLAIMS: [Claim; 32] = [
    ([1, 1], 7, &[], 7, true),
    ([1, 2], 7, &[], 7, true),
    ([1, 3], 7, &[], 7, true),
    ([1, 4], 7, &[], 7, true),
    ([0, 3], 1, &[], 1, true),
    ([60, 63], TOP, &[], TOP, true),
    ([61, 63], 7, &[], 7, true),
    ([62, 63], 7, &[], 7, true),
    ([63, 63], 7, &[], 7, true),
    ([2, 4], 7, &[(1, 5), (5, 6)], 7, true),
    ([1, 4], 7, &[(0, 5), (5, 6)], 7, true),
    ([1, 4], 7, &[(1, 9)], 9, false),
    ([1, 4], 7, &[(2, 9)], 9, false),
    ([1, 4], 7, &[(3, 9)], 9, false),
    ([1, 4], 7, &[(4, 9)], 9, false),
    ([1, 3], 7, &[(3, 9)], 9, false),
    ([1, 2], 7, &[(2, 9)], 9, false),
    ([1, 1], 7, &[(1, 9)], 9, false),
    ([1, 4], 7, &[(2, 9), (3, 3)], 9, false),
    ([1, 4], 7, &[(2, 3), (3, 9)], 3, false),
    ([1, 4], 7, &[(1, 5), (4, 1)], 5, false),
    ([1, 4], 7, &[(1, 4), (2, 3), (3, 2), (4, 1)], 4, false),
    ([1, 4], 7, &[(3, TOP), (4, 1)], TOP, false),
    ([1, 4], 7, &[(0, 2), (3, 8), (5, 1)], 8, false),
    ([60, 63], 7, &[(60, 9)], 9, false),
    ([60, 63], 7, &[(63, 9)], 9, false),
    ([0, 3], 7, &[(0, 9), (3, 5)], 9, false),
    // The value that is claimed for is held already.
    ([1, 2], 7, &[(1, 7)], 7, false),
    ([1, 2], 7, &[(2, 7)], 7, false),
    ([1, 4], 7, &[(3, 7), (4, 9)], 7, false),
    ([1, 4], TOP, &[(4, TOP)], TOP, false),
    ([1, 4], 7, &[(1, 7), (2, 7), (3, 7), (4, 7)], 7, false),
];

fn single_claim(([r, q], v, held, response, takes): &Claim) -> (String, Vec<Operation>) {
    let words: Vec<String> =
        held.iter().map(|(register, value)| format!("{register} holds {value}")).collect();
    let found = if held.is_empty() { "all are free".into() } else { words.join(" and ") };
    let taken = if *takes { "all" } else { "none" };
    let name = format!("a claim of {r} to {q} for {v} where {found}: takes {taken}, responds {response}");
    let before = held.iter().map(|(register, value)| set(*register, *value));
    (name, before.chain([claim_together(*r, *q, *v)]).collect())
}

/// A register, what it holds and what it is claimed for.
const ONE_REGISTER: [(u8, u32, u32); 6] =
    [(5, 0, 7), (5, 9, 7), (5, 7, 7), (0, 0, 1), (63, 0, TOP), (63, TOP, 1)];

/// A plain claim and a claim of code 6, which do the same.
fn one_register(r: u8, held: u32, v: u32) -> [(String, Vec<Operation>); 2] {
    [("a plain claim of", claim(r, v)), ("a claim by code 6 of", claim_together(r, r, v))].map(
        |(words, operation)| {
            (format!("{words} {r} for {v} where it holds {held}"), vec![set(r, held), operation, operation])
        },
    )
}

fn several_claims() -> [(&'static str, Vec<Operation>); 5] {
    [
        (
            "claims that overlap in turn, of which every second takes",
            vec![
                claim_together(1, 4, 1),
                claim_together(4, 7, 2),
                claim_together(5, 7, 3),
                claim_together(7, 10, 4),
                claim_together(8, 11, 5),
            ],
        ),
        ("a claim of registers that a set, a move and an add have freed", freed()),
        ("moves, adds and claims of what a claim took", taken_apart()),
        (
            "claims of four, three, two and one up to register 63, each freed by sets",
            (60..=63).flat_map(|r| claimed_and_freed(r, 63)).collect(),
        ),
        (
            "plain claims before and behind claims of several",
            vec![
                claim(2, 5),
                claim_together(1, 3, 6),
                claim_together(3, 6, 8),
                claim(6, 9),
                claim(1, 9),
                claim_together(1, 1, 4),
            ],
        ),
    ]
}

fn freed() -> Vec<Operation> {
    vec![
        set(1, 5),
        set(2, 6),
        set(3, 7),
        claim_together(1, 3, 9),
        set(1, 0),
        claim_together(1, 3, 9),
        shift(2, 20, 6),
        claim_together(1, 3, 9),
        add(3, TOP - 6),
        claim_together(1, 3, 9),
    ]
}

fn taken_apart() -> Vec<Operation> {
    vec![
        claim_together(1, 4, 5),
        shift(1, 2, 5),
        claim_together(1, 1, 8),
        add(4, TOP - 4),
        claim_together(4, 5, 6),
        shift(3, 9, 2),
        claim_together(2, 3, 1),
        claim_together(9, 12, 1),
    ]
}

fn claimed_and_freed(r: u8, q: u8) -> Vec<Operation> {
    let claimed = [claim_together(r, q, 7), claim_together(q, q, 8)];
    claimed.into_iter().chain((r..=q).map(|register| set(register, 0))).collect()
}

// ---- undone and carried out again in another order

fn reordered() -> Vec<(&'static str, Vec<Message>)> {
    let claimed = weak(0, 1, 20, claim_together(1, 4, 7));
    vec![
        ("a claim takes, is undone and then finds the third held", vec![claimed, weak(1, 1, 10, set(3, 5))]),
        (
            "a claim takes, is undone and takes again behind a claim of their neighbour",
            vec![claimed, weak(1, 1, 10, claim_together(5, 8, 3))],
        ),
        (
            "a claim finds the third held, is undone and then takes",
            vec![weak(0, 2, 10, set(3, 5)), claimed, weak(1, 1, 15, set(3, 0))],
        ),
        (
            "a claim finds the second held, is undone and then finds the first held",
            vec![weak(0, 2, 10, set(2, 5)), claimed, weak(1, 1, 15, claim_together(0, 1, 6))],
        ),
        (
            "a claim finds the fourth held, is undone and finds it held once more",
            vec![weak(0, 2, 10, set(4, 5)), claimed, weak(1, 1, 15, read(5))],
        ),
        ("overlapping claims heard in falling clock order", falling_claims()),
        ("claims and sets to 0 heard in falling clock order", falling_claims_and_sets()),
    ]
}

/// Each stands before all that were heard, which are undone and done again.
fn falling_claims() -> Vec<Message> {
    let claims = [
        claim_together(1, 4, 1),
        claim_together(4, 6, 2),
        claim_together(5, 8, 3),
        claim_together(8, 9, 4),
        claim_together(9, 9, 5),
        claim_together(3, 5, 6),
    ];
    heard(&claims).into_iter().rev().collect()
}

fn falling_claims_and_sets() -> Vec<Message> {
    let operations = [
        claim_together(60, 63, 1),
        set(61, 0),
        set(62, 0),
        claim_together(61, 62, 2),
        set(60, 0),
        set(61, 0),
        claim_together(60, 61, 3),
        claim_together(60, 63, 4),
    ];
    heard(&operations).into_iter().rev().collect()
}

// ---- settled in another order

/// Two strong claims of overlapping registers, and their settlements in turn.
fn settled() -> Vec<(&'static str, Vec<Message>)> {
    let early = strong(0, 1, 10, claim_together(1, 4, 7), &[]);
    let late = strong(1, 1, 20, claim_together(4, 5, 8), &[]);
    let behind_early = strong(1, 1, 20, claim_together(4, 5, 8), &[(0, 1)]);
    vec![
        (
            "two strong claims settled in clock order: the first takes",
            vec![early, late, settlement(0, 1), settlement(1, 1)],
        ),
        (
            "two strong claims settled the other way round: the second takes",
            vec![early, late, settlement(1, 1), settlement(0, 1)],
        ),
        (
            "a strong claim that names another waits for it and finds one held",
            vec![early, behind_early, settlement(1, 1), settlement(0, 1), settlement(1, 1)],
        ),
    ]
}

// ---- heard again

/// A claim of one register by code 4 and by code 6 under one number, and claims
/// of code 6 that differ in one field.
fn heard_again() -> Vec<(&'static str, Vec<Message>)> {
    let (plain, together) = (weak(0, 1, 5, claim(9, 7)), weak(0, 1, 5, claim_together(9, 9, 7)));
    let strong_plain = strong(1, 1, 5, claim(9, 7), &[(0, 1)]);
    let strong_together = strong(1, 1, 5, claim_together(9, 9, 7), &[(0, 1)]);
    let several = weak(0, 1, 5, claim_together(1, 3, 7));
    vec![
        ("a plain claim heard again as one of code 6", vec![plain, together, plain]),
        ("a claim of code 6 heard again as a plain one", vec![together, plain, together]),
        (
            "strong claims heard again with the other code, before and behind their settlement",
            vec![together, strong_plain, strong_together, settlement(1, 1), strong_together, strong_plain],
        ),
        (
            "a claim of several heard again with another q, another r and another amount",
            vec![
                several,
                weak(0, 1, 5, claim_together(1, 4, 7)),
                weak(0, 1, 5, claim_together(2, 3, 7)),
                weak(0, 1, 5, claim_together(1, 3, 8)),
                weak(0, 1, 5, claim_together(1, 5, 7)),
                several,
            ],
        ),
    ]
}

// ---- bad operations

/// Registers that cannot be claimed together.
const BAD_SPANS: [(u8, u8); 20] = [
    (61, 64),
    (63, 64),
    (60, 64),
    (0, 64),
    (0, 255),
    (64, 64),
    (64, 0),
    (255, 255),
    // With bytes, three above these is 2 and 0.
    (255, 2),
    (253, 0),
    (1, 0),
    (4, 1),
    (63, 60),
    (63, 62),
    (63, 0),
    (0, 4),
    (1, 5),
    (59, 63),
    (58, 63),
    (0, 63),
];

fn bad() -> Vec<Operation> {
    let spans = BAD_SPANS.iter().map(|(r, q)| claim_together(*r, *q, 7));
    let for_nothing =
        [(0, 0), (5, 5), (1, 4), (60, 63), (63, 63), (0, 4)].map(|(r, q)| claim_together(r, q, 0));
    let other_codes = [0, 7, 8, 255].map(|code| Operation::new(code, 1, 4, 7));
    let with_q = [1, 4, 63].map(|q| Operation::new(CLAIM, 1, q, 7));
    let others_with_q = [(READ, 0), (SET, 7), (ADD, 7)].map(|(code, v)| Operation::new(code, 1, 4, v));
    spans.chain(for_nothing).chain(other_codes).chain(with_q).chain(others_with_q).collect()
}

fn bad_name(Operation { code, r, q, amount }: &Operation) -> String {
    format!("refused among claims: {code} {r} {q} {amount}")
}

/// A bad operation heard weak and strong, and a good claim with the number that
/// it did not take.
fn refused(operation: &Operation) -> Vec<Message> {
    let [bad_weak, bad_strong] = [weak(0, 1, 1, *operation), strong(1, 1, 1, *operation, &[])];
    vec![bad_weak, bad_strong, weak(0, 1, 1, claim_together(1, 4, 9))]
}

/// The same with a bad operation that is made as well.
fn made_and_heard(operation: &Operation) -> Vec<u8> {
    let mut list = one_by_one(&refused(operation));
    list.add(&make(*operation, 5));
    list.add(&make_strong(*operation, 5));
    list.add(&make(claim_together(1, 4, 8), 5));
    list.add_due_steps();
    list.into_bytes()
}

// ---- own claims

const SHOP_OF_TWO: (u8, u8) = (2, 0);

/// The calls and then reads of the registers 1 to 5.
fn add_calls(cases: &mut Cases, name: &str, calls: &[&[Call]]) {
    let list = with_reads(list(SHOP_OF_TWO, &calls.concat()), &[1, 2, 3, 4, 5]);
    cases.add(name, list.into_bytes());
}

/// An own strong claim takes 1 to 4, and behind it another's claim of 4 and 5
/// finds 4 held.
fn own_claims_that_take(cases: &mut Cases) {
    let before = [
        make_strong(claim_together(1, 4, 7), 9),
        Call::CarryOut,
        take(strong(1, 1, 12, claim_together(4, 5, 8), &[])),
        Call::CarryOut,
    ];
    let redone = [Call::Undo, Call::Undo, Call::CarryOut, Call::CarryOut];
    let mut add_case = |name: &str, more: &[&[Call]]| {
        let name = format!("an own strong claim takes tentatively, {name}");
        add_calls(cases, &name, &[&before, &more.concat()]);
    };
    add_case("and is settled in place", &[&[settle(0, 1)]]);
    add_case(
        "another's is settled before it and takes: settled where it then stands, it has failed",
        &[&[settle(1, 1)], &redone, &[settle(0, 1)]],
    );
    add_case(
        "another's is settled before it and takes: carried out after its settlement, it fails",
        &[&[settle(1, 1), settle(0, 1)], &redone],
    );
}

/// Another's strong claim of 4 and 5 takes, and behind it an own one of 1 to 4
/// finds 4 held.
fn own_claims_that_fail(cases: &mut Cases) {
    let before = [
        take(strong(1, 1, 3, claim_together(4, 5, 8), &[])),
        Call::CarryOut,
        make_strong(claim_together(1, 4, 7), 9),
        Call::CarryOut,
    ];
    let redone = [Call::Undo, Call::Undo, Call::CarryOut, Call::CarryOut];
    let mut add_case = |name: &str, more: &[&[Call]]| {
        let name = format!("an own strong claim fails tentatively, {name}");
        add_calls(cases, &name, &[&before, &more.concat()]);
    };
    add_case(
        "another's is settled before it: settled in place, it has failed",
        &[&[settle(1, 1), settle(0, 1)]],
    );
    add_case("is settled before another's and takes", &[&[settle(0, 1)], &redone, &[settle(1, 1)]]);
    add_case(
        "takes tentatively behind a set to 0 and fails again, settled before that",
        &[
            &[settle(1, 1), take(weak(1, 2, 5, set(4, 0))), Call::Undo, Call::CarryOut, Call::CarryOut],
            &[settle(0, 1)],
            &redone,
        ],
    );
}

/// An own claim of one register, weak and strong, by code 4 and by code 6.
fn own_claims_of_one(cases: &mut Cases) {
    let first = take(weak(1, 1, 5, set(4, 9)));
    let behind_it = [Call::CarryOut, first, Call::Undo, Call::CarryOut, Call::CarryOut];
    for (words, operation) in [("plain", claim(4, 7)), ("of code 6", claim_together(4, 4, 7))] {
        let name = |strength: &str| format!("an own {strength} claim of one register, {words}: it takes");
        let found_held = format!("{} and then finds it held", name("weak"));
        add_calls(cases, &found_held, &[&[make(operation, 9)], &behind_it]);
        let settled = format!("{}, finds it held and, settled before that, takes", name("strong"));
        add_calls(cases, &settled, &[&[make_strong(operation, 9)], &behind_it, &[settle(0, 1)]]);
    }
}
