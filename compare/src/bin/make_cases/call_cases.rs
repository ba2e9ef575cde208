//! The lists of calls of the program `cases`, as docs/CALLS.md lays
//! them out, most of them about own clocks that are put back, the last about
//! moves and about claims of neighbouring registers.

use mizzencord_compare::drawing::random::Random;
use mizzencord_compare::drawing::shift;
use mizzencord_compare::replica::call::Call;
use mizzencord_compare::replica::calls::{self, List, CALLS_AT, CALL_SIZE};
use mizzencord_compare::replica::printout::MOST_BYTES;
use mizzencord_compare::replica::request::*;
use mizzencord_compare::replica::wire::{Message, WEAK_LENGTH};

use crate::{
    add, bytes_of, claim, claims, heard_in_clock_order, moves, set, settlement, shift, strong, strong_of,
    weak, Cases, BAD_OPERATIONS, MOST_NAMED, WIDEST_SHOP,
};

pub fn cases() -> Cases {
    let mut cases = Cases(Vec::new());
    for shop in [(1, 0), (3, 2), (8, 7)] {
        own_clocks(&mut cases, shop);
        full_shifts(&mut cases, shop);
    }
    ties(&mut cases);
    contexts(&mut cases);
    settlements(&mut cases);
    refused_between(&mut cases);
    bad_shops(&mut cases);
    lengths(&mut cases);
    unreadable(&mut cases);
    random_lists(&mut cases);
    limits(&mut cases);
    long_order(&mut cases);
    moves::lists(&mut cases);
    claims::lists(&mut cases);
    cases
}

// ---- what lists are made of

const TOP: u32 = u32::MAX;

pub fn make(operation: Operation, clock: u32) -> Call {
    Call::Make(operation, false, Clock(clock))
}

pub fn make_strong(operation: Operation, clock: u32) -> Call {
    Call::Make(operation, true, Clock(clock))
}

pub fn read(r: u8) -> Operation {
    Operation::new(READ, r, 0, 0)
}

/// Hears a request or settles one.
pub fn take(message: Message) -> Call {
    match message {
        Message::Request(request) => Call::Hear(request),
        Message::Settlement(number) => Call::Settle(number),
    }
}

pub fn settle(panel: u8, event: u8) -> Call {
    take(settlement(panel, event))
}

pub fn list((panels, own): (u8, u8), calls: &[Call]) -> List {
    let mut list = List::new(panels, own);
    calls.iter().for_each(|call| list.add(call));
    list
}

/// The calls, single steps until idle, and two reads of a register: one at the
/// highest clock and one that is raised to it.
fn to_the_end(mut list: List, register: u8) -> Vec<u8> {
    list.add_due_steps();
    for clock in [TOP, 0] {
        list.add(&make(read(register), clock));
        list.add_due_steps();
    }
    list.into_bytes()
}

/// The calls with all single steps that are due after each.
pub fn step_by_step((panels, own): (u8, u8), calls: &[Call]) -> List {
    let mut list = List::new(panels, own);
    for call in calls {
        list.add(call);
        list.add_due_steps();
    }
    list
}

impl Cases {
    fn add_calls(&mut self, name: impl Into<String>, shop: (u8, u8), calls: &[Call]) {
        self.add(name, to_the_end(list(shop, calls), 4));
    }
}

// ---- the cases

fn own_clocks(cases: &mut Cases, shop: (u8, u8)) {
    let (panels, own) = shop;
    let mut add_case = |name: &str, calls: &[Call]| {
        cases.add_calls(format!("{name}, at panel {own} of {panels}"), shop, calls);
    };
    add_case("made at 9, 9 and 8", &[make(set(4, 1), 9), make(add(4, 2), 9), make(add(4, 4), 8)]);
    add_case("made at 20, 10 and 15", &[make(set(4, 1), 20), make(add(4, 2), 10), make(set(4, 7), 15)]);
    add_case(
        "made weak at 20, 0/1 heard at 15, made strong at 10",
        &[make(set(4, 1), 20), take(weak(0, 1, 15, set(4, 2))), make_strong(add(4, 5), 10)],
    );
    add_case(
        "0/1 heard at 50 first and then made at 10 and 9",
        &[take(weak(0, 1, 50, set(4, 2))), make(add(4, 5), 10), make_strong(add(4, 6), 9)],
    );
    add_case(
        "a bad operation made at 99 and then a good one at 50",
        &[make(set(64, 1), 99), make(set(4, 1), 50), make(add(4, 1), 49)],
    );
    add_case(
        "the lowest and the highest clock",
        &[0, 0, TOP, 0, TOP - 1, TOP].map(|clock| make(add(4, 1), clock)),
    );
    add_case("the highest clock first", &[TOP, TOP - 1, 0].map(|clock| make_strong(add(4, 1), clock)));
    add_case("one less than 1", &[1, 0, 2, 1].map(|clock| make(add(4, 1), clock)));
    let rising_and_falling = [5, 9, 3, 9, 10, 1, 12, 11, 13, 0];
    let calls: Vec<Call> = (1..).zip(rising_and_falling).map(|(v, clock)| make(set(4, v), clock)).collect();
    add_case("rising and falling by turns", &calls);
    let falling: Vec<Call> = (1..=12).map(|v| make(set(4, v), 40 - v)).collect();
    let heard = [weak(0, 1, 39, add(4, 100)), weak(0, 2, 38, add(4, 200)), weak(0, 3, 40, add(4, 300))];
    add_case("falling by one, and others heard at these clocks", &[&falling, &heard.map(take)[..]].concat());
}

fn full_shifts(cases: &mut Cases, shop: (u8, u8)) {
    let (panels, own) = shop;
    let makes = |strong: bool| -> Vec<Call> {
        let operation = |event: u32| if event.is_multiple_of(3) { set(4, event) } else { add(4, event) };
        let call =
            |event: u32| Call::Make(operation(event), strong && event.is_multiple_of(4), Clock(1000 - event));
        (1..=64).map(call).collect()
    };
    let more = [999, 935, 998, 1000, 0, TOP].map(|clock| make(set(4, 1), clock));
    let mut steps = list(shop, &makes(false));
    more.iter().for_each(|call| steps.add(call));
    let name = format!("64 made at falling clocks, then lower and higher ones, at panel {own} of {panels}");
    cases.add(name, to_the_end(steps, 4));
    let mut due = list(shop, &makes(true));
    more.iter().for_each(|call| due.add(call));
    let tail = [settle(own, 8), Call::RunDue, settle(own, 4), settle(own, 64), Call::RunDue, Call::RunDue];
    tail.iter().for_each(|call| due.add(call));
    let name = format!("64 made at falling clocks and some settled, at panel {own} of {panels}");
    cases.add(name, to_the_end(due, 4));
}

/// A request heard at the clock to which an own one is raised, or at the clock
/// that it was made with: before the own ones, between them or behind them.
fn ties(cases: &mut Cases) {
    const SHOP: (u8, u8) = (3, 1);
    for (panel, clock) in [(0, 20), (2, 20), (0, 12), (2, 12), (0, 19), (2, 21)] {
        for (place, when) in ["first", "second", "third"].iter().enumerate() {
            for raised in [make(add(4, 10), 12), make_strong(add(4, 10), 12)] {
                let strength = if matches!(raised, Call::Make(_, true, _)) { "strong" } else { "weak" };
                let mut calls = vec![make(set(4, 1), 20), raised];
                calls.insert(place, take(weak(panel, 1, clock, set(4, 700))));
                let name = format!("{panel}/1 heard {when} at {clock}, own made at 20 and {strength} at 12");
                if clock == 20 {
                    let steps = step_by_step(SHOP, &calls);
                    cases.add(format!("{name}, step by step"), to_the_end(steps, 4));
                }
                cases.add_calls(name, SHOP, &calls);
            }
        }
    }
    cases.add_calls(
        "many at one clock",
        SHOP,
        &[
            take(weak(0, 2, 20, set(4, 1))),
            take(weak(2, 2, 20, add(4, 2))),
            make(shift(4, 5, 1), 20),
            make(add(4, 4), 19),
            take(weak(0, 1, 20, add(4, 8))),
            make_strong(set(4, 16), 0),
            take(weak(2, 1, 20, set(4, 32))),
            make(claim(4, 64), 20),
            take(strong(2, 3, 20, add(4, 128), &[(0, 1), (1, 1)])),
            settle(2, 3),
        ],
    );
}

/// Strong requests made with each clock about those of the requests heard:
/// which of them the context names shows the clock that placed it.
fn contexts(cases: &mut Cases) {
    const SHOP: (u8, u8) = (3, 1);
    let mut heard: Vec<Call> = [9, 10, 11, 19, 20, 21, 22]
        .into_iter()
        .zip(1..)
        .flat_map(|(clock, event)| [(0, clock, event), (2, clock, event)])
        .map(|(panel, clock, event)| take(weak(panel, event, clock, add(4, event as u32))))
        .collect();
    heard.push(take(strong(2, 8, 15, add(4, 50), &[])));
    heard.push(take(strong(0, 8, 16, add(4, 60), &[(0, 1)])));
    heard.push(settle(0, 8));
    for clock in [0, 9, 10, 11, 18, 19, 20, 21, 22, TOP] {
        let own = [make_strong(set(4, 3), clock), make_strong(read(4), 0)];
        let calls = [&[make(set(4, 1), 20)], &heard[..], &own, &[settle(1, 2), settle(1, 3)]].concat();
        cases.add_calls(format!("made weak at 20 and strong at {clock} among others"), SHOP, &calls);
    }
    let calls = [&heard[..], &[make_strong(set(4, 3), 10), make_strong(read(4), 9)]].concat();
    cases.add_calls("made strong at 10 and 9 among others, nothing before", SHOP, &calls);
}

fn settlements(cases: &mut Cases) {
    const SHOP: (u8, u8) = (2, 0);
    let raised = [make(add(4, 5), 9), Call::CarryOut, make_strong(add(4, 5), 4)];
    let mut add_case = |name: &str, more: &[Call]| {
        cases.add_calls(name, SHOP, &[&raised, more].concat());
    };
    add_case("raised, carried out and settled", &[Call::CarryOut, settle(0, 2)]);
    add_case("raised, settled and carried out", &[settle(0, 2), Call::CarryOut, settle(0, 2)]);
    add_case(
        "raised, carried out, moved by a request before it and settled in place",
        &[
            Call::CarryOut,
            take(weak(1, 1, 5, set(4, 20))),
            Call::Undo,
            Call::Undo,
            Call::CarryOut,
            Call::CarryOut,
            Call::CarryOut,
            settle(0, 2),
            Call::CarryOut,
        ],
    );
    add_case(
        "raised and carried out, behind a tie settled before it",
        &[
            Call::CarryOut,
            take(strong(1, 1, 9, claim(4, 8), &[])),
            Call::CarryOut,
            settle(1, 1),
            settle(0, 2),
            Call::RunDue,
        ],
    );
    add_case(
        "raised and to be undone when it is settled",
        &[Call::CarryOut, take(weak(1, 1, 9, set(4, 1))), take(weak(1, 2, 8, set(4, 2))), settle(0, 2)],
    );
    cases.add_calls(
        "the last own request is settled and still raises",
        SHOP,
        &[
            make_strong(set(4, 1), 20),
            settle(0, 1),
            make(add(4, 2), 10),
            take(weak(1, 1, 15, set(4, 30))),
            take(weak(1, 2, 20, add(4, 40))),
            make_strong(add(4, 5), 3),
            settle(0, 3),
            make(add(4, 6), 19),
        ],
    );
}

fn refused_between(cases: &mut Cases) {
    let bad = BAD_OPERATIONS.map(|(code, r, q, amount)| Operation::new(code, r, q, amount));
    for (name, clock) in [("higher", 99), ("lower", 5), ("the highest", TOP)] {
        let refused = bad.iter().zip([false, true].iter().cycle());
        let refused = refused.map(|(operation, strong)| Call::Make(*operation, *strong, Clock(clock)));
        let calls: Vec<Call> = [make(set(4, 1), 20)]
            .into_iter()
            .chain(refused)
            .chain([make(add(4, 1), 10), make(add(4, 2), 30), make(set(64, 0), clock), make(add(4, 3), 29)])
            .collect();
        cases.add_calls(
            format!("bad operations at a clock that is {name} between good ones"),
            (2, 1),
            &calls,
        );
    }
}

fn bad_shops(cases: &mut Cases) {
    for (panels, own) in [(9, 0), (0, 0), (3, 3), (8, 8), (255, 255)] {
        cases.add_calls(
            format!("calls after fresh {panels}, {own} is refused"),
            (panels, own),
            &[
                make(set(4, 1), 20),
                take(weak(0, 1, 15, set(4, 2))),
                take(weak(1, 1, 15, set(4, 2))),
                make_strong(add(4, 5), 10),
                Call::CarryOut,
                settle(0, 2),
                settle(1, 1),
                settle(0, 1),
            ],
        );
    }
}

/// Lists without calls, and lists whose last call is cut off.
fn lengths(cases: &mut Cases) {
    cases.add("no byte", vec![]);
    for byte in [0, 3, 9] {
        cases.add(format!("one byte, {byte}"), vec![byte]);
    }
    for (panels, own) in [(3, 2), (9, 0)] {
        cases.add(format!("no calls, {panels} and {own}"), vec![panels, own]);
    }
    let calls = [make(set(4, 1), 20), make_strong(add(4, 1), 10), Call::CarryOut, Call::CarryOut];
    let whole = list((3, 2), &calls).into_bytes();
    for calls in 0..=3 {
        for more in [1, WEAK_LENGTH + 1, CALL_SIZE - 1] {
            let length = CALLS_AT + calls * CALL_SIZE + more;
            cases.add(format!("{calls} calls and {more} bytes"), whole[..length].to_vec());
        }
    }
    cases.add("4 calls and a tag", [&whole[..], &[3]].concat());
}

/// Calls whose message is unreadable, is another than the tag asks for or has
/// bytes behind it, between two makes that show what changed.
fn unreadable(cases: &mut Cases) {
    let request = bytes_of(&weak(2, 9, 90, set(4, 600)));
    let own = bytes_of(&strong_of(0, 1, 12, add(4, 600), NumberSet([u64::MAX; PANELS])));
    let with = |message: &[u8], at: usize, byte: u8| {
        let mut changed = message.to_vec();
        changed[at] = byte;
        changed
    };
    let messages = [
        ("zeros", vec![]),
        ("highest bytes", vec![255; CALL_SIZE - 1]),
        ("kind 0", with(&request, 2, 0)),
        ("kind 4", with(&request, 2, 4)),
        ("kind 257", with(&request, 3, 1)),
        ("length 17", with(&request, 0, 17)),
        ("length 274", with(&request, 1, 1)),
        ("the length of a strong request", with(&request, 0, 82)),
        ("kind 2 and the length of a weak request", with(&request, 2, 2)),
        ("a spare byte of 1", with(&request, 13, 1)),
        ("a spare byte of 128 in a strong request", with(&own, 13, 128)),
        ("a settlement", bytes_of(&settlement(1, 1))),
        ("a settlement of length 7", with(&bytes_of(&settlement(1, 1)), 0, 7)),
        ("a settlement with bytes behind it", [bytes_of(&settlement(1, 1)), vec![255; 9]].concat()),
        ("a weak request with bytes behind it", [&request[..], &[255; 64]].concat()),
        ("another's number and every number in the context", own),
    ];
    for (tag, call) in [(1, "made"), (0, "on the bus"), (255, "on the bus, tag 255")] {
        for (name, message) in &messages {
            let mut bytes = list((3, 1), &[make_strong(set(4, 1), 20)]).into_bytes();
            append_raw(&mut bytes, tag, message);
            for more in [make(add(4, 2), 10), Call::CarryOut, Call::CarryOut, Call::CarryOut, Call::RunDue] {
                assert!(calls::append(&mut bytes, &more));
            }
            cases.add(format!("{name}, {call}"), bytes);
        }
    }
    let mut bytes = list((3, 1), &[make(set(4, 1), 20), take(weak(0, 1, 19, set(4, 2)))]).into_bytes();
    for tag in [3, 2, 3, 3, 4, 4, 2] {
        append_raw(&mut bytes, tag, &bytes_of(&weak(0, 2, 1, set(4, 3))));
    }
    cases.add("steps with messages that are not looked at", bytes);
}

/// Adds a call with these bytes as its message and zeros behind them.
fn append_raw(bytes: &mut Vec<u8>, tag: u8, message: &[u8]) {
    let end = bytes.len() + CALL_SIZE;
    bytes.push(tag);
    bytes.extend_from_slice(message);
    assert!(bytes.len() <= end);
    bytes.resize(end, 0);
}

fn random_lists(cases: &mut Cases) {
    let mut random = Random::new(502);
    for place in 1..=40 {
        let seed = random.word();
        let length = random.one_of(&[60, 60, 60, 60, 70, 90, 160]);
        let (panels, own, calls) = shift::calls(seed, length);
        cases.add(format!("random calls {place}"), list((panels, own), &calls).into_bytes());
    }
}

/// The longest name, the shortest, and the longest input, whose last call is
/// cut off.
fn limits(cases: &mut Cases) {
    cases.add("n".repeat(MOST_NAMED), list((1, 0), &[make(set(4, 1), 2), make(set(4, 2), 1)]).into_bytes());
    cases.add("1", list((1, 0), &[make(read(4), 0)]).into_bytes());
    let most = (MOST_BYTES - CALLS_AT) / CALL_SIZE;
    let call = |place| if place % 2 == 0 { make(add(4, place), 1000 - place) } else { Call::CarryOut };
    let mut bytes = list((8, 7), &(0..most as u32).map(call).collect::<Vec<Call>>()).into_bytes();
    bytes.resize(MOST_BYTES, 1);
    cases.add("as many bytes as a list can have", bytes);
}

/// A long order with a request made to stand at its front and one near its end,
/// behind each of them the undos that are due and one more, which is refused.
/// Then a settlement that leaves the order as it is, and one that changes it.
fn long_order(cases: &mut Cases) {
    const HEARD: usize = 300;
    let [panels, own] = WIDEST_SHOP;
    let heard: Vec<Call> = heard_in_clock_order(HEARD).into_iter().map(take).collect();
    let front = [Call::RunDue, make(set(4, 1_000), 5)];
    let near_the_end = [Call::RunDue, make_strong(read(4), 2_975)];
    let last = take(strong(6, 43, 3_010, set(4, 5_000), &[]));
    let calls = [
        &heard[..],
        &front,
        &[Call::Undo; HEARD + 1],
        &near_the_end,
        &[Call::Undo; 4],
        &[Call::CarryOut; 5],
        &[settle(own, 2), Call::RunDue, last, Call::CarryOut, settle(6, 43), Call::Undo, Call::RunDue],
    ];
    let name =
        format!("{HEARD} heard in clock order, then one made before all and one before the last three");
    cases.add_calls(name, (panels, own), &calls.concat());
}
