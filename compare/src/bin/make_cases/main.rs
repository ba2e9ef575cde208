//! Writes the stored input and the expected output of the program `cases`, the
//! printouts first and then the lists of calls, into the folder of the crates.

use std::path::Path;
use std::{env, fs, io};

use mizzencord_compare::drawing::inputs::awkward_input;
use mizzencord_compare::drawing::messages::bus_run;
use mizzencord_compare::drawing::random::Random;
use mizzencord_compare::drawing::shift::shop;
use mizzencord_compare::replica::calls;
use mizzencord_compare::replica::panel::Panel;
use mizzencord_compare::replica::printout::{printout, MOST_BYTES};
use mizzencord_compare::replica::request::*;
use mizzencord_compare::replica::wire::append;
use mizzencord_compare::replica::wire::{Message, SETTLEMENT_LENGTH, STRONG_LENGTH, WEAK_LENGTH};

mod call_cases;
mod claims;
mod in_turn;
mod moves;

/// The most bytes that the name of a case can have.
const MOST_NAMED: usize = 4_096;

fn main() -> io::Result<()> {
    let folder = env::args().nth(1).unwrap_or_else(|| "../crates".into());
    let sorts = [
        Sort { byte: b'p', room: 2 * MOST_BYTES, output: printout, cases: cases() },
        Sort { byte: b'c', room: MOST_BYTES, output: calls::printed, cases: call_cases::cases() },
    ];
    let folder = Path::new(&folder).join("cases");
    fs::create_dir_all(&folder)?;
    fs::write(folder.join("stdin"), sorts.iter().flat_map(Sort::framed).collect::<Vec<u8>>())?;
    fs::write(folder.join("stdout"), sorts.iter().flat_map(Sort::printed).collect::<Vec<u8>>())
}

/// Cases of one sort.
struct Sort {
    /// The byte that stands for it.
    byte: u8,
    /// The most bytes of a case that the program has room for.
    room: usize,
    /// What is printed of a case's bytes.
    output: fn(&[u8]) -> Vec<u8>,
    cases: Cases,
}

/// An input of the printout program, or a list of calls, with a name that says
/// what it is.
struct Case {
    name: String,
    input: Vec<u8>,
}

struct Cases(Vec<Case>);

impl Cases {
    fn add(&mut self, name: impl Into<String>, input: Vec<u8>) {
        self.0.push(Case { name: name.into(), input });
    }

    fn add_messages(&mut self, name: impl Into<String>, messages: &[Message]) {
        self.add(name, input_of(messages));
    }
}

impl Sort {
    /// Name, sort and bytes of each case, each behind its length in three bytes.
    fn framed(&self) -> Vec<u8> {
        let mut bytes = Vec::new();
        for Case { name, input } in &self.cases.0 {
            assert!((1..=MOST_NAMED).contains(&name.len()) && input.len() <= self.room);
            for part in [name.as_bytes(), &[self.byte], input] {
                bytes.extend_from_slice(&(part.len() as u32).to_le_bytes()[..3]);
                bytes.extend_from_slice(part);
            }
        }
        bytes
    }

    /// Name and output of each case.
    fn printed(&self) -> Vec<u8> {
        let mut bytes = Vec::new();
        for Case { name, input } in &self.cases.0 {
            bytes.extend_from_slice(name.as_bytes());
            bytes.push(b'\n');
            bytes.extend_from_slice(&(self.output)(input));
        }
        bytes
    }
}

/// The cases of the printout program.
fn cases() -> Cases {
    let mut cases = Cases(Vec::new());
    shops(&mut cases);
    cuts(&mut cases);
    kinds_and_lengths(&mut cases);
    spare_bytes(&mut cases);
    bad_numbers(&mut cases);
    bad_operations(&mut cases);
    contexts(&mut cases);
    refusal_order(&mut cases);
    heard_again(&mut cases);
    settlements_refused(&mut cases);
    settlements_in_time(&mut cases);
    settlements_cut(&mut cases);
    orders(&mut cases);
    reordering(&mut cases);
    registers(&mut cases);
    random_runs(&mut cases);
    cases.add("as many bytes as count, the last message whole", full_input());
    late_in_long_orders(&mut cases);
    settled_in_long_orders(&mut cases);
    moves::printouts(&mut cases);
    claims::printouts(&mut cases);
    let cut = "the limit cuts a request, and what stands behind it would change the board";
    cases.add(format!("more bytes than count: {cut}"), overlong_input());
    let heard = "448 heard requests in falling clock order, with settlements";
    cases.add(format!("a full shift: {heard}"), full_shift());
    cases
}

// ---- what inputs are made of

/// The shop of most cases: three panels, of which this is the last.
const SHOP: [u8; 2] = [3, 2];

/// The shop whose last panel can hear the most requests.
const WIDEST_SHOP: [u8; 2] = [8, 7];

/// How many it can hear: 64 of each other panel.
const MOST_HEARD: usize = 448;

fn input_of(messages: &[Message]) -> Vec<u8> {
    input_in(SHOP, messages)
}

fn input_in(shop: [u8; 2], messages: &[Message]) -> Vec<u8> {
    let mut bytes = shop.to_vec();
    for message in messages {
        append(&mut bytes, message);
    }
    bytes
}

fn bytes_of(message: &Message) -> Vec<u8> {
    let mut bytes = Vec::new();
    append(&mut bytes, message);
    bytes
}

fn weak(panel: u8, event: u8, clock: u32, operation: Operation) -> Message {
    let number = Number::new(panel, event);
    Message::Request(Request { number, clock: Clock(clock), operation, ..Request::default() })
}

fn strong(panel: u8, event: u8, clock: u32, operation: Operation, context: &[(u8, u8)]) -> Message {
    let mut named = NumberSet::EMPTY;
    for &(panel, event) in context {
        named.insert(Number::new(panel, event).slot());
    }
    strong_of(panel, event, clock, operation, named)
}

fn strong_of(panel: u8, event: u8, clock: u32, operation: Operation, context: NumberSet) -> Message {
    let number = Number::new(panel, event);
    Message::Request(Request { number, clock: Clock(clock), operation, strong: true, context })
}

fn settlement(panel: u8, event: u8) -> Message {
    Message::Settlement(Number::new(panel, event))
}

const fn set(r: u8, v: u32) -> Operation {
    Operation::new(SET, r, 0, v)
}

fn add(r: u8, v: u32) -> Operation {
    Operation::new(ADD, r, 0, v)
}

fn claim(r: u8, v: u32) -> Operation {
    Operation::new(CLAIM, r, 0, v)
}

const fn shift(r: u8, q: u8, v: u32) -> Operation {
    Operation::new(MOVE, r, q, v)
}

const fn claim_together(r: u8, q: u8, v: u32) -> Operation {
    Operation::new(CLAIM_TOGETHER, r, q, v)
}

/// The i-th number, counted from 0, of so many panels that make a request each
/// in turn.
fn number_in_turn(i: usize, panels: u8) -> Number {
    Number::new((i % panels as usize) as u8, (i / panels as usize) as u8 + 1)
}

/// The weak request at a place, counted from 1, of those that the widest shop's
/// last panel hears.
fn heard(place: usize, clock: u32, operation: Operation) -> Message {
    let number = number_in_turn(place - 1, WIDEST_SHOP[1]);
    weak(number.panel.0, number.event.0, clock, operation)
}

/// The first so many requests heard, each clock ten above the one before.
fn heard_in_clock_order(count: usize) -> Vec<Message> {
    (1..=count).map(|place| heard(place, 10 * place as u32, add(4, 1))).collect()
}

/// The messages of document 01's input.
fn worked_messages() -> [Message; 4] {
    [
        weak(0, 1, 10, set(4, 6)),
        weak(1, 1, 5, add(4, 3)),
        strong(1, 2, 12, claim(0, 2), &[(1, 1)]),
        settlement(1, 2),
    ]
}

// ---- the cases

fn shops(cases: &mut Cases) {
    cases.add("empty", vec![]);
    for byte in [0, 3, 9] {
        cases.add(format!("one byte, {byte}"), vec![byte]);
    }
    for (panels, own) in [(1, 0), (3, 2), (8, 7), (0, 0), (9, 0), (255, 0), (3, 3), (3, 4), (1, 255), (8, 8)]
    {
        cases.add(format!("two bytes, {panels} and {own}"), vec![panels, own]);
    }
    for (panels, own) in [(0, 2), (9, 2), (3, 3), (1, 0), (2, 0), (8, 7)] {
        let mut input = input_of(&worked_messages());
        input[..2].copy_from_slice(&[panels, own]);
        cases.add(format!("document 01's messages in a shop of {panels} at panel {own}"), input);
    }
}

fn cuts(cases: &mut Cases) {
    let worked = input_of(&worked_messages());
    for length in 0..=worked.len() {
        cases.add(format!("document 01's input cut to {length}"), worked[..length].to_vec());
    }
    let first = strong(1, 64, u32::MAX, shift(63, 0, u32::MAX), &[(0, 64), (2, 1)]);
    let message = bytes_of(&first);
    for length in 0..=message.len() {
        cases.add(format!("strong message cut to {length}"), [&SHOP, &message[..length]].concat());
    }
}

fn kinds_and_lengths(cases: &mut Cases) {
    let [weak, _, strong, settlement] = worked_messages();
    for kind in [0u16, 4, 255, 256, 257, 258, 259, 65535] {
        let mut input = input_of(&[weak, weak, settlement]);
        input[SHOP.len() + WEAK_LENGTH + 2..][..2].copy_from_slice(&kind.to_le_bytes());
        cases.add(format!("second message of kind {kind}"), input);
    }
    for (message, lengths) in [
        (weak, [0u16, 6, 17, 19, 82, 18 + 256, 65535]),
        (strong, [0, 18, 81, 83, 6, 82 + 256, 65535]),
        (settlement, [0, 5, 7, 18, 82, 6 + 256, 65535]),
    ] {
        for length in lengths {
            let mut input = input_of(&[message, weak]);
            input[SHOP.len()..][..2].copy_from_slice(&length.to_le_bytes());
            cases.add(format!("kind {} of length {length}", message.kind()), input.clone());
            input.truncate(SHOP.len() + message.length() - 1);
            cases.add(format!("kind {} of length {length}, a byte missing", message.kind()), input);
        }
    }
    cases.add("unknown kind of a wrong length, cut", [&SHOP[..], &[19, 0, 0, 0]].concat());
    cases.add("zeros", vec![3, 2, 0, 0, 0, 0, 0, 0, 0, 0]);
    cases.add("highest bytes", [&SHOP[..], &[255; 100]].concat());
}

fn spare_bytes(cases: &mut Cases) {
    const SPARE: usize = 13;
    let [weak, late, strong, settlement] = worked_messages();
    for (message, name) in [(weak, "weak"), (strong, "strong")] {
        for spare in [1, 128, 255] {
            let mut input = input_of(&[message, late]);
            input[SHOP.len() + SPARE] = spare;
            cases.add(format!("spare byte {spare} in a {name} message"), input);
        }
    }
    let mut input = input_of(&[weak, late, strong, settlement]);
    input[SHOP.len() + 2 * WEAK_LENGTH + SPARE] = 1;
    cases.add("spare byte set in the third of four messages", input);
    let mut cut = input_of(&[weak]);
    cut[SHOP.len() + SPARE] = 1;
    cut.pop();
    cases.add("spare byte set and the last byte missing", cut);
}

fn bad_numbers(cases: &mut Cases) {
    let good = set(1, 5);
    for (panel, event) in [(3, 1), (7, 1), (8, 1), (255, 1), (0, 0), (0, 65), (1, 255), (2, 0), (255, 255)] {
        cases.add_messages(
            format!("hear {panel}/{event}"),
            &[weak(panel, event, 1, good), weak(0, 1, 2, good)],
        );
    }
    cases.add_messages("own echo", &[weak(2, 1, 1, good), weak(1, 1, 1, good), strong(2, 64, 1, good, &[])]);
}

fn bad_operations(cases: &mut Cases) {
    for (code, r, q, amount) in BAD_OPERATIONS {
        let operation = Operation::new(code, r, q, amount);
        let name = format!("bad operation {code} {r} {q} {amount}");
        cases.add_messages(name, &[weak(0, 1, 1, operation), strong(1, 1, 1, operation, &[])]);
    }
}

fn contexts(cases: &mut Cases) {
    let good = set(1, 5);
    for context in [&[(1, 1)][..], &[(0, 1), (1, 1)], &[(3, 1)], &[(7, 64)], &[(0, 1), (3, 64)]] {
        cases.add_messages(format!("context naming {context:?} of 1/1"), &[strong(1, 1, 1, good, context)]);
    }
    for context in [&[(1, 64)][..], &[(2, 1)], &[(0, 64), (2, 64)]] {
        cases.add_messages(
            format!("good context naming {context:?} of 1/1"),
            &[strong(1, 1, 1, good, context)],
        );
    }
}

fn refusal_order(cases: &mut Cases) {
    let good = set(1, 5);
    let bad = Operation::new(0, 0, 0, 0);
    let firsts = [
        strong(3, 1, 1, bad, &[(3, 1)]),
        strong(2, 65, 1, bad, &[(3, 1)]),
        strong(2, 1, 1, bad, &[(2, 1)]),
        strong(1, 1, 1, bad, &[(1, 1)]),
        strong(1, 1, 1, good, &[(1, 1)]),
    ];
    cases.add_messages("the first refusal of several counts", &firsts);
}

/// Operations that document 01 calls bad, one for each reason and beside its limits.
const BAD_OPERATIONS: [(u8, u8, u8, u32); 14] = [
    (0, 0, 0, 0),
    (7, 0, 0, 1),
    (255, 1, 2, 3),
    (READ, 64, 0, 0),
    (SET, 255, 0, 1),
    (MOVE, 0, 64, 1),
    (READ, 0, 1, 0),
    (SET, 0, 1, 1),
    (ADD, 0, 63, 1),
    (CLAIM, 0, 1, 1),
    (READ, 0, 0, 1),
    (CLAIM, 0, 0, 0),
    (MOVE, 9, 9, 0),
    (MOVE, 64, 64, 1),
];

fn heard_again(cases: &mut Cases) {
    let held = weak(0, 1, 5, shift(1, 2, 3));
    let named = strong(1, 1, 6, set(3, 9), &[(0, 1)]);
    cases.add_messages("the same weak request twice", &[held, held]);
    cases.add_messages("the same strong request twice", &[held, named, named]);
    let clashes = [
        weak(0, 1, 6, shift(1, 2, 3)),
        weak(0, 1, 5, set(1, 3)),
        weak(0, 1, 5, shift(4, 2, 3)),
        weak(0, 1, 5, shift(1, 4, 3)),
        weak(0, 1, 5, shift(1, 2, 4)),
        strong(0, 1, 5, shift(1, 2, 3), &[]),
    ];
    for (field, clash) in ["clock", "code", "r", "q", "amount", "strength"].iter().zip(clashes) {
        cases.add_messages(format!("number clash: another {field}"), &[held, clash, held]);
    }
    let other = strong(1, 1, 6, set(3, 9), &[(0, 2)]);
    cases.add_messages("number clash: another context", &[named, other, named]);
    let bad = strong(1, 1, 6, set(64, 9), &[(1, 1)]);
    let itself = strong(1, 1, 6, set(3, 9), &[(1, 1)]);
    cases.add_messages("refused for more before it is held already", &[named, bad, itself]);
    cases.add_messages(
        "settled requests are held",
        &[held, named, settlement(1, 1), held, named, weak(0, 1, 9, shift(1, 2, 3)), other],
    );
}

/// A weak request, a strong one that names it, and its settlement.
fn settled_pair() -> [Message; 3] {
    [weak(0, 1, 1, set(1, 5)), strong(1, 1, 2, set(2, 6), &[(0, 1)]), settlement(1, 1)]
}

fn settlements_refused(cases: &mut Cases) {
    let [first, second, settled] = settled_pair();
    for (panel, event) in [(3, 1), (255, 1), (0, 0), (1, 65), (0, 1), (2, 1), (1, 64)] {
        cases.add_messages(format!("settle {panel}/{event} on an empty board"), &[settlement(panel, event)]);
    }
    cases.add_messages("a weak request is settled", &[first, settlement(0, 1)]);
    cases.add_messages("the same settlement again", &[first, second, settled, settled]);
    cases.add_messages("a settled weak request is settled", &[first, second, settled, settlement(0, 1)]);
    cases.add_messages("a settlement before its request", &[settled, second, settled]);
}

fn settlements_in_time(cases: &mut Cases) {
    let [first, second, settled] = settled_pair();
    cases.add_messages("a settlement waits until its context has come", &[second, settled, first, settled]);
    cases.add_messages(
        "a heard strong request is not known before it is settled",
        &[
            strong(1, 1, 1, set(1, 5), &[]),
            strong(0, 1, 2, set(2, 6), &[(1, 1)]),
            settlement(0, 1),
            settlement(1, 1),
            settlement(0, 1),
        ],
    );
    let own_missing = strong(0, 1, 4, set(1, 5), &[(2, 1)]);
    cases.add_messages("a context of the own panel waits", &[own_missing, settlement(0, 1)]);
}

fn settlements_cut(cases: &mut Cases) {
    let whole = input_of(&settled_pair());
    let last = whole.len() - SETTLEMENT_LENGTH;
    for length in 0..SETTLEMENT_LENGTH {
        cases.add(format!("a settlement cut to {length}"), whole[..last + length].to_vec());
    }
    let message = bytes_of(&weak(0, 2, 7, add(1, 1)));
    cases.add("half a settlement and then a message", [&whole[..last + 3], &message].concat());
}

fn orders(cases: &mut Cases) {
    let tied = [
        weak(1, 1, 7, set(0, 11)),
        weak(0, 9, 7, add(0, 5)),
        weak(0, 8, 7, claim(0, 3)),
        weak(1, 2, 6, add(0, 1)),
        weak(0, 64, 7, set(0, 2)),
    ];
    cases.add_messages("equal clocks: by panel and then by event", &tied);
    let falling: Vec<Message> = (1..=20).map(|e| weak(0, e, 100 - e as u32, set(e % 3, e as u32))).collect();
    cases.add_messages("falling clocks", &falling);
    let rising: Vec<Message> = (1..=20).map(|e| weak(0, e, e as u32, add(e % 3, e as u32))).collect();
    cases.add_messages("rising clocks", &rising);
    cases.add_messages(
        "the lowest and the highest clock",
        &[weak(0, 1, u32::MAX, set(1, 1)), weak(1, 1, 0, set(1, 2))],
    );
}

fn reordering(cases: &mut Cases) {
    cases.add_messages(
        "a context is settled in clock order, whatever the order of its numbers",
        &[
            weak(0, 1, 9, set(5, 1)),
            weak(1, 1, 3, add(5, 4)),
            weak(0, 2, 6, claim(6, 8)),
            weak(1, 2, 1, set(6, 2)),
            strong(1, 3, 2, shift(5, 6, 1), &[(0, 1), (0, 2), (1, 1)]),
            settlement(1, 3),
        ],
    );
    cases.add_messages(
        "two sets of one register are undone newest first",
        &[
            weak(0, 1, 10, set(4, 1)),
            weak(0, 2, 11, set(4, 2)),
            weak(1, 1, 5, add(4, 100)),
            weak(1, 2, 12, add(4, 7)),
        ],
    );
    cases.add_messages(
        "a refused message has no undos",
        &[
            weak(0, 1, 10, set(4, 1)),
            weak(1, 1, 5, add(4, 1)),
            weak(1, 1, 5, add(4, 1)),
            settlement(1, 1),
            weak(1, 2, 1, set(9, 9)),
        ],
    );
}

fn registers(cases: &mut Cases) {
    for (name, value, operation) in [
        ("adding rolls over", 5, add(7, u32::MAX)),
        ("adding rolls over to 0", 1, add(7, u32::MAX)),
        ("a claim of a register that is taken", 2, claim(7, 3)),
        ("a move of all of it", 5, shift(7, 8, 5)),
        ("a move of more than there is", 5, shift(7, 8, 6)),
        ("a move of nothing", 5, shift(7, 8, 0)),
    ] {
        cases.add_messages(name, &[weak(0, 1, 1, set(7, value)), weak(0, 2, 2, operation)]);
    }
    let full = [weak(0, 1, 1, set(7, 5)), weak(0, 2, 2, set(8, u32::MAX)), weak(0, 3, 3, shift(7, 8, 1))];
    cases.add_messages("a move into a full register", &full);
    let all: Vec<Message> = (0..64).map(|r| weak(1, r + 1, r as u32, set(r, u32::MAX - r as u32))).collect();
    cases.add_messages("every register", &all);
}

fn random_runs(cases: &mut Cases) {
    for seed in 1..=24 {
        cases.add(
            format!("awkward shift {seed}"),
            awkward_input(seed, 2 + (seed % 7) as u8, (seed % 2) as u8, 14),
        );
    }
    for seed in 1..=24 {
        let mut random = Random::new(seed);
        let (panels, own) = shop(&mut random);
        let mut input = vec![panels, own];
        input.extend_from_slice(&bus_run(&mut random, 5));
        cases.add(format!("any fields and damaged bytes {seed}"), input);
    }
}

// ---- long orders

/// Requests that are heard late and stand near the end, at the front and in the
/// middle.
fn late_in_long_orders(cases: &mut Cases) {
    const IN_ORDER: usize = 444;
    let before_the_last = 10 * IN_ORDER as u32 - 5;
    let mut messages = heard_in_clock_order(IN_ORDER);
    for (late, clock) in (1..).zip([before_the_last, 5, 2_225, before_the_last - 10]) {
        messages.push(heard(IN_ORDER + late, clock, set(4, 1_000 * late as u32)));
    }
    assert_eq!(messages.len(), MOST_HEARD);
    let places = "one before the last, one before all, one in the middle and one before the last three";
    cases.add(format!("{IN_ORDER} heard in clock order, then {places}"), input_in(WIDEST_SHOP, &messages));
}

/// Settlements of the request at a place, which names so many of the first.
fn settled_in_long_orders(cases: &mut Cases) {
    for (place, named, name) in [
        (448, 0, "the last settled and naming none"),
        (448, 443, "the last settled and naming all but four"),
        (448, 447, "the last settled and naming all"),
        (300, 295, "the 300th settled and naming all but four"),
    ] {
        let mut messages = heard_in_clock_order(MOST_HEARD);
        let mut context = NumberSet::EMPTY;
        messages[..named].iter().for_each(|message| context.insert(message.number().slot()));
        let number = messages[place - 1].number();
        let clock = 10 * place as u32;
        messages[place - 1] = strong_of(number.panel.0, number.event.0, clock, set(4, 1_000), context);
        messages.push(Message::Settlement(number));
        let name = format!("{MOST_HEARD} heard in clock order, {name} before it");
        cases.add(name, input_in(WIDEST_SHOP, &messages));
    }
}

// ---- long inputs

/// As many bytes as count, of messages that are whole: the last settles a request.
fn full_input() -> Vec<u8> {
    let named = strong(1, 1, 2, set(2, 6), &[(0, 1)]);
    let mut bytes = input_of(&[weak(0, 1, 1, set(1, 5))]);
    let tail = [
        input_tail(&weak(0, 1, 1, set(1, 5)), 7),
        input_tail(&settlement(0, 1), 5),
        input_tail(&settlement(1, 1), 1),
    ]
    .concat();
    while bytes.len() + tail.len() < MOST_BYTES {
        append(&mut bytes, &named);
    }
    bytes.extend_from_slice(&tail);
    assert_eq!(bytes.len(), MOST_BYTES);
    bytes
}

fn input_tail(message: &Message, times: usize) -> Vec<u8> {
    bytes_of(message).repeat(times)
}

/// More bytes than count: the limit cuts a strong request, which together with
/// what stands behind it would change the board.
fn overlong_input() -> Vec<u8> {
    let named = strong(1, 1, 2, set(2, 6), &[(0, 1)]);
    let clash = strong(1, 1, 2, set(2, 7), &[(0, 1)]);
    let mut bytes = input_of(&[weak(0, 1, 1, set(1, 5)), named, settlement(1, 1)]);
    while bytes.len() + 2 * STRONG_LENGTH <= MOST_BYTES {
        append(&mut bytes, &named);
        append(&mut bytes, &clash);
    }
    while bytes.len() + STRONG_LENGTH <= MOST_BYTES {
        append(&mut bytes, &weak(1, 2, 9, set(3, 8)));
    }
    assert!(bytes.len() < MOST_BYTES);
    append(&mut bytes, &strong(0, 2, 0, set(9, 99), &[]));
    append(&mut bytes, &settlement(0, 2));
    append(&mut bytes, &weak(0, 3, 0, add(9, 1)));
    assert!(bytes.len() > MOST_BYTES);
    bytes
}

/// A shift in which all other panels make all their requests: falling clocks
/// with ties, settlements on the way, some of which wait or come twice, and the
/// rest at the end.
fn full_shift() -> Vec<u8> {
    const OWN: u8 = 7;
    let mut random = Random::new(448);
    let (_, mut panel) = Panel::fresh(PANELS as u8, OWN);
    let mut bytes = vec![PANELS as u8, OWN];
    let mut strong_ones = Vec::new();
    for i in 0..OWN as usize * EVENTS {
        let request = next_request(&mut random, &panel, i, OWN);
        if request.strong {
            strong_ones.push(request.number);
        }
        hand_over(&mut panel, &mut bytes, &Message::Request(request));
        if !strong_ones.is_empty() && random.percent(12) {
            let number = random.one_of(&strong_ones);
            hand_over(&mut panel, &mut bytes, &Message::Settlement(number));
        }
    }
    for number in strong_ones.iter().chain(strong_ones.iter().rev()) {
        hand_over(&mut panel, &mut bytes, &Message::Settlement(*number));
    }
    assert_eq!(panel.accepted_requests(), OWN as usize * EVENTS);
    assert!(bytes.len() <= MOST_BYTES);
    bytes
}

/// The i-th request of a full shift, the panels in turn. A strong one names
/// some of what is known and at times a strong one not settled.
fn next_request(random: &mut Random, panel: &Panel, i: usize, others: u8) -> Request {
    let number = number_in_turn(i, others);
    let (r, further) = (random.below(REGISTERS), 1 + random.below(REGISTERS - 1));
    let (r, q) = (r as u8, ((r + further) % REGISTERS) as u8);
    let amount = 1 + random.below(1000) as u32;
    let operation = match random.below(6) {
        0 => set(r, amount),
        1 | 2 => add(r, amount),
        3 => claim(r, amount),
        4 => Operation::new(READ, r, 0, 0),
        _ => shift(r, q, amount),
    };
    let strong = random.percent(25);
    let mut context = NumberSet::EMPTY;
    if strong {
        context = *panel.causal_context();
        context.0.iter_mut().for_each(|word| *word &= random.word() & random.word() & random.word());
        if random.percent(20) && !panel.tentative().is_empty() {
            context.insert(random.one_of(panel.tentative()) as usize);
        }
    }
    Request { number, clock: Clock(10_000 - i as u32 / 3), operation, strong, context }
}

fn hand_over(panel: &mut Panel, bytes: &mut Vec<u8>, message: &Message) {
    match message {
        Message::Request(request) => panel.hear(request),
        Message::Settlement(number) => panel.settle(*number),
    };
    panel.run_due();
    append(bytes, message);
}
