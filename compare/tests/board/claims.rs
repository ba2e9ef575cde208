//! Decks taken together: document 02's request (g).

use mizzencord_compare::counting::claims::ClaimOutcomes;
use mizzencord_compare::counting::Counting;
use mizzencord_compare::drawing::inputs::printout_input;
use mizzencord_compare::drawing::long_shift::long_calls;
use mizzencord_compare::drawing::random::Random;
use mizzencord_compare::drawing::shift::Shift;
use mizzencord_compare::replica::call::Call;
use mizzencord_compare::replica::calls;
use mizzencord_compare::replica::panel::{Answer, Panel};
use mizzencord_compare::replica::request::*;
use mizzencord_compare::replica::wire::{parse, Message, Parsed};

use crate::build::*;
use crate::examples::stored;
use crate::naive;

const TOP: u32 = 4_294_967_295;

/// What four neighbours hold, how many of them from the first on are claimed
/// for 7, the response, and what the four hold afterwards.
pub const CLAIMS: [([u32; 4], u8, u32, [u32; 4]); 30] = [
    // All free, whatever stands behind them.
    ([0, 0, 0, 0], 1, 7, [7, 0, 0, 0]),
    ([0, 0, 0, 0], 2, 7, [7, 7, 0, 0]),
    ([0, 0, 0, 0], 3, 7, [7, 7, 7, 0]),
    ([0, 0, 0, 0], 4, 7, [7, 7, 7, 7]),
    ([0, 5, 6, 8], 1, 7, [7, 5, 6, 8]),
    ([0, 0, 6, 8], 2, 7, [7, 7, 6, 8]),
    ([0, 0, 0, 8], 3, 7, [7, 7, 7, 8]),
    // The first held.
    ([9, 0, 0, 0], 1, 9, [9, 0, 0, 0]),
    ([9, 0, 0, 0], 2, 9, [9, 0, 0, 0]),
    ([9, 0, 0, 0], 3, 9, [9, 0, 0, 0]),
    ([9, 0, 0, 0], 4, 9, [9, 0, 0, 0]),
    // The second, the third and the fourth held.
    ([0, 9, 0, 0], 2, 9, [0, 9, 0, 0]),
    ([0, 9, 0, 0], 3, 9, [0, 9, 0, 0]),
    ([0, 9, 0, 0], 4, 9, [0, 9, 0, 0]),
    ([0, 0, 9, 0], 3, 9, [0, 0, 9, 0]),
    ([0, 0, 9, 0], 4, 9, [0, 0, 9, 0]),
    ([0, 0, 0, 9], 4, 9, [0, 0, 0, 9]),
    // Several held: the lowest register, not the least value nor the highest.
    ([0, 9, 3, 0], 4, 9, [0, 9, 3, 0]),
    ([0, 3, 9, 0], 4, 3, [0, 3, 9, 0]),
    ([5, 0, 0, 1], 4, 5, [5, 0, 0, 1]),
    ([1, 0, 0, 5], 4, 1, [1, 0, 0, 5]),
    ([0, 0, 8, 1], 4, 8, [0, 0, 8, 1]),
    ([TOP, 1, 0, 2], 3, TOP, [TOP, 1, 0, 2]),
    ([0, TOP, 1, TOP], 3, TOP, [0, TOP, 1, TOP]),
    ([4, 3, 2, 1], 4, 4, [4, 3, 2, 1]),
    // Held by the claimed value itself, which is a claim that takes nothing.
    ([7, 0, 0, 0], 1, 7, [7, 0, 0, 0]),
    ([7, 0, 0, 0], 2, 7, [7, 0, 0, 0]),
    ([0, 0, 0, 7], 4, 7, [0, 0, 0, 7]),
    ([0, 7, 0, 9], 4, 7, [0, 7, 0, 9]),
    ([7, 7, 7, 7], 4, 7, [7, 7, 7, 7]),
];

/// The first of the four neighbours.
const PLACES: [u8; 5] = [0, 1, 30, 59, 60];

fn reply(panel: u8, event: u8, response: u32, mark: u8) -> Answer {
    Answer { number: Number::new(panel, event), response, mark, ..Answer::default() }
}

fn four(panel: &Panel, first: u8) -> [u32; 4] {
    [0, 1, 2, 3].map(|further| panel.register(first + further).value)
}

// ---- good and bad operations

/// The refusals of an operation that is made and heard, weak and strong.
fn refusals(operation: Operation) -> [u8; 4] {
    let mut panel = panel(2, 0);
    let refusals = [
        panel.make(operation, false, Clock(1)).refusal,
        panel.make(operation, true, Clock(1)).refusal,
        panel.hear(&weak(1, 1, 1, operation)).refusal,
        panel.hear(&strong(1, 2, 1, operation, &[])).refusal,
    ];
    let accepted = refusals.iter().filter(|refusal| **refusal == 0).count();
    assert_eq!((panel.accepted_requests(), panel.owed()), (accepted, accepted));
    refusals
}

#[test]
fn one_to_four_registers_are_claimed_together() {
    for (r, q) in [(0, 0), (0, 1), (0, 2), (0, 3), (5, 5), (1, 4), (59, 62), (60, 63), (61, 63), (62, 63)] {
        for v in [1, 7, TOP] {
            assert_eq!(refusals(claim_together(r, q, v)), [0; 4], "{r} {q} {v}");
        }
    }
    assert_eq!(refusals(claim_together(63, 63, 1)), [0; 4]);
    assert_eq!(refusals(claim_together(63, 63, TOP)), [0; 4]);
}

#[test]
fn bad_claims_are_refused() {
    let over_63 = [(61, 64), (63, 64), (60, 64), (0, 64), (64, 64), (64, 0), (0, 255), (255, 255)];
    // With bytes, three above 253 to 255 is 0 to 2.
    let far_over_63 = [(255, 2), (253, 0), (254, 255), (64, 67), (128, 128)];
    let above = [(1, 0), (63, 62), (63, 0), (4, 1), (63, 60), (62, 1)];
    let five_and_more = [(0, 4), (1, 5), (59, 63), (0, 5), (0, 63), (58, 63)];
    for (r, q) in [&over_63[..], &far_over_63, &above, &five_and_more].concat() {
        for v in [0, 1, 7, TOP] {
            assert_eq!(refusals(claim_together(r, q, v)), [3; 4], "{r} {q} {v}");
        }
    }
    for (r, q) in [(0, 0), (0, 1), (0, 3), (5, 5), (60, 63), (63, 63)] {
        assert_eq!(refusals(claim_together(r, q, 0)), [3; 4], "{r} {q}");
    }
}

#[test]
fn the_codes_beside_it_stay_as_they_were() {
    for code in [0, 7, 8, 255] {
        for (r, q, v) in [(0, 0, 0), (0, 0, 1), (1, 2, 5), (60, 63, TOP)] {
            assert_eq!(refusals(Operation::new(code, r, q, v)), [3; 4], "{code} {r} {q} {v}");
        }
    }
    for q in [1, 2, 63, 64, 255] {
        assert_eq!(refusals(Operation::new(1, 1, q, 0)), [3; 4], "{q}");
        for code in 2..=4 {
            assert_eq!(refusals(Operation::new(code, 1, q, 7)), [3; 4], "{code} {q}");
        }
    }
    for (r, refusal) in [(0, 0), (63, 0), (64, 3)] {
        assert_eq!(refusals(claim(r, 7)), [refusal; 4]);
        assert_eq!(refusals(claim(r, 0)), [3; 4]);
    }
}

/// The sentence of document 02 for code 6, with document 01's for r and q.
#[test]
fn every_claim_is_judged_by_the_documents() {
    let mut good = 0;
    for (r, q) in (0..=255u8).flat_map(|r| (0..=255u8).map(move |q| (r, q))) {
        for v in [0, 1, TOP] {
            let over = r > 63 || q > 63;
            let more_than_four = q as i32 - r as i32 + 1 > 4;
            let bad = over || r > q || more_than_four || v == 0;
            let operation = claim_together(r, q, v);
            assert_eq!((operation.is_bad(), naive::good(&operation)), (bad, !bad), "{r} {q} {v}");
            good += !bad as usize;
        }
    }
    assert_eq!(good, 2 * (64 + 63 + 62 + 61));
}

#[test]
fn refusal_3_stands_where_it_stood() {
    let bad = claim_together(61, 64, 7);
    let mut panel = panel(3, 0);
    let held = strong(1, 1, 5, claim_together(1, 4, 7), &[(2, 1)]);
    assert_eq!(panel.hear(&held).refusal, 0);
    assert_eq!(panel.hear(&strong(3, 1, 5, bad, &[])).refusal, 2);
    assert_eq!(panel.hear(&strong(0, 1, 5, bad, &[])).refusal, 4);
    assert_eq!(panel.hear(&strong(1, 1, 5, bad, &[(1, 1)])).refusal, 3);
    assert_eq!(panel.hear(&strong(1, 1, 5, claim_together(1, 4, 7), &[(1, 1)])).refusal, 21);
    assert_eq!(panel.hear(&held).refusal, 7);
    for _ in 0..64 {
        assert_eq!(panel.make(claim_together(1, 4, 7), false, Clock(1)).refusal, 0);
    }
    assert_eq!(panel.make(bad, true, Clock(1)), Answer { refusal: 3, ..Answer::default() });
    assert_eq!(panel.make(claim_together(1, 4, 7), true, Clock(1)).refusal, 6);
}

#[test]
fn the_reader_judges_none_of_it() {
    for (r, q, v) in [(1, 4, 7), (0, 4, 7), (4, 1, 7), (61, 64, 7), (255, 2, 7), (1, 4, 0)] {
        let request = weak(1, 1, 5, claim_together(r, q, v));
        let bytes = [18, 0, 1, 0, 1, 1, 5, 0, 0, 0, 6, r, q, 0, v as u8, 0, 0, 0];
        assert_eq!(parse(&bytes, 0), Parsed::Message(Message::Request(request), 18));
    }
}

// ---- carrying out and undoing

#[test]
fn all_are_claimed_or_none() {
    for (before, count, response, after) in CLAIMS {
        for (first, others) in PLACES.into_iter().flat_map(|first| [(first, 0), (first, 1_000)]) {
            let around = |four: [u32; 4]| {
                let mut registers = [others; 64];
                registers[first as usize..][..4].copy_from_slice(&four);
                registers
            };
            let operation = claim_together(first, first + count - 1, 7);
            let mut registers = around(before);
            assert_eq!(operation.execute(&mut registers), response, "{before:?} {operation:?}");
            assert_eq!(registers, around(after), "{before:?} {operation:?}");
            let mut board = around(before).map(u64::from);
            assert_eq!(naive::run(&operation, &mut board), response);
            assert_eq!(board, around(after).map(u64::from));
        }
    }
}

/// A panel on which panel 1 has set four neighbours, by 1/1 to 1/4 at clock 1.
fn panel_with(values: [u32; 4], first: u8) -> Panel {
    let mut panel = panel(2, 0);
    for (further, value) in (0..).zip(values) {
        panel.hear(&weak(1, further + 1, 1, set(first + further, value)));
    }
    assert_eq!(panel.run_due(), 4);
    panel
}

#[test]
fn a_claim_that_is_made_or_heard_responds_with_what_it_found() {
    for (before, count, response, after) in CLAIMS {
        for first in PLACES {
            let operation = claim_together(first, first + count - 1, 7);
            let mut panel = panel_with(before, first);
            assert_eq!(panel.make(operation, false, Clock(2)).request, weak(0, 1, 2, operation));
            assert_eq!(panel.carry_out(), reply(0, 1, response, 1));
            assert_eq!(four(&panel, first), after);
            let mut panel = panel_with(before, first);
            panel.hear(&weak(1, 5, 2, operation));
            assert_eq!(panel.carry_out(), reply(1, 5, response, 0));
            assert_eq!(four(&panel, first), after);
        }
    }
}

#[test]
fn undoing_a_claim_puts_every_register_back() {
    for (before, count, response, after) in CLAIMS {
        for first in PLACES {
            let mut panel = panel_with(before, first);
            let found = *panel.registers();
            panel.hear(&weak(1, 5, 9, claim_together(first, first + count - 1, 7)));
            assert_eq!(panel.carry_out(), reply(1, 5, response, 0));
            assert_eq!(four(&panel, first), after);
            panel.hear(&weak(1, 6, 5, read(first)));
            assert_eq!(panel.undo(), reply(1, 5, 0, 0));
            assert_eq!(*panel.registers(), found);
            assert_eq!(panel.carry_out(), reply(1, 6, before[0], 0));
            assert_eq!(panel.carry_out(), reply(1, 5, response, 0));
            assert_eq!(four(&panel, first), after);
        }
    }
}

#[test]
fn a_claim_is_carried_out_again_in_another_order() {
    for (before, count, response, after) in CLAIMS {
        // It first takes all that it claims, and then others come before it.
        let mut panel = panel(2, 0);
        panel.hear(&weak(1, 5, 9, claim_together(30, 30 + count - 1, 7)));
        assert_eq!(panel.carry_out(), reply(1, 5, 7, 0));
        for (further, value) in (0..).zip(before) {
            panel.hear(&weak(1, further + 1, 1, set(30 + further, value)));
        }
        assert_eq!(panel.undo(), reply(1, 5, 0, 0));
        assert_eq!(*panel.registers(), [0; 64]);
        for event in 1..=4 {
            assert_eq!(panel.carry_out(), reply(1, event, 0, 0));
        }
        assert_eq!(panel.carry_out(), reply(1, 5, response, 0));
        assert_eq!(four(&panel, 30), after);
    }
}

#[test]
fn of_three_claims_the_first_in_order_takes() {
    // 1/1 takes 4 to 6, and 1/2 and 1/3 on both sides find one of these held.
    let mut panel = panel(2, 0);
    panel.hear(&weak(1, 1, 30, claim_together(4, 6, 1)));
    panel.hear(&weak(1, 2, 40, claim_together(6, 9, 2)));
    panel.hear(&weak(1, 3, 50, claim_together(1, 4, 3)));
    for response in [(1, 1), (2, 1), (3, 1)].map(|(event, response)| reply(1, event, response, 0)) {
        assert_eq!(panel.carry_out(), response);
    }
    assert_eq!(panel.registers()[..10], [0, 0, 0, 0, 1, 1, 1, 0, 0, 0]);
    // 1/4 takes 6 and 7 before them, so that only 1/3 takes.
    panel.hear(&weak(1, 4, 20, claim_together(6, 7, 4)));
    for event in [3, 2, 1] {
        assert_eq!(panel.undo(), reply(1, event, 0, 0));
    }
    assert_eq!(*panel.registers(), [0; 64]);
    for response in [(4, 4), (1, 4), (2, 4), (3, 3)].map(|(event, response)| reply(1, event, response, 0)) {
        assert_eq!(panel.carry_out(), response);
    }
    assert_eq!(panel.registers()[..10], [0, 3, 3, 3, 3, 0, 4, 4, 0, 0]);
}

// ---- tentative and stable replies

#[test]
fn a_claim_that_took_for_the_time_being_fails_when_settled() {
    let mut panel = panel(2, 0);
    let own = panel.make(claim_together(1, 4, 7), true, Clock(5)).request.number;
    assert_eq!(panel.carry_out(), reply(0, 1, 7, 2));
    panel.hear(&strong(1, 1, 9, claim_together(3, 3, 8), &[]));
    assert_eq!(panel.carry_out(), reply(1, 1, 7, 0));
    // Another's claim is settled first and holds the third.
    assert_eq!(panel.settle(Number::new(1, 1)), Answer::default());
    assert_eq!(panel.settle(own), Answer::default());
    assert_eq!(panel.undo(), reply(1, 1, 0, 0));
    assert_eq!(panel.undo(), reply(0, 1, 0, 0));
    assert_eq!(panel.carry_out(), reply(1, 1, 8, 0));
    assert_eq!(panel.carry_out(), reply(0, 1, 8, 3));
    assert_eq!(panel.registers()[..6], [0, 0, 0, 8, 0, 0]);
    assert_eq!(panel.awaiting(), 0);
}

#[test]
fn a_claim_that_failed_for_the_time_being_takes_when_settled() {
    let mut panel = panel(2, 0);
    panel.hear(&strong(1, 1, 3, claim_together(4, 5, 8), &[]));
    let own = panel.make(claim_together(1, 4, 7), true, Clock(5)).request;
    assert_eq!(own, strong(0, 1, 5, claim_together(1, 4, 7), &[]));
    assert_eq!(panel.carry_out(), reply(1, 1, 8, 0));
    assert_eq!(panel.carry_out(), reply(0, 1, 8, 2));
    assert_eq!(panel.settle(own.number), Answer::default());
    assert_eq!(panel.undo(), reply(0, 1, 0, 0));
    assert_eq!(panel.undo(), reply(1, 1, 0, 0));
    assert_eq!(panel.carry_out(), reply(0, 1, 7, 3));
    assert_eq!(panel.carry_out(), reply(1, 1, 7, 0));
    assert_eq!(panel.registers()[..7], [0, 7, 7, 7, 7, 0, 0]);
}

#[test]
fn a_claim_settled_in_place_keeps_its_response() {
    let mut panel = panel(2, 0);
    panel.hear(&weak(1, 1, 1, set(3, 9)));
    let own = panel.make(claim_together(1, 4, 7), true, Clock(5)).request;
    assert_eq!(own.context, set_of(&[(1, 1)]));
    panel.carry_out();
    assert_eq!(panel.carry_out(), reply(0, 1, 9, 2));
    assert_eq!(panel.settle(own.number), Answer { response: 9, mark: 3, ..Answer::default() });
    assert_eq!(panel.owed(), 0);
}

// ---- a plain claim

/// Registers of which each is free as often as not.
fn half_free(random: &mut Random) -> [u32; 64] {
    std::array::from_fn(|_| random.one_of(&[0, 0, 0, 0, 1, 7, TOP, 2_718_281_828]))
}

#[test]
fn a_claim_of_one_register_is_a_plain_claim_but_for_the_code() {
    let mut random = Random::new(6);
    for _ in 0..20_000 {
        let before = half_free(&mut random);
        let (r, v) = (random.below(64) as u8, random.one_of(&[1, 7, TOP]));
        let (mut one, mut other) = (before, before);
        assert_eq!(claim(r, v).execute(&mut one), claim_together(r, r, v).execute(&mut other));
        assert_eq!(one, other);
    }
    for (r, v) in (0..=255).flat_map(|r| [0, 1, 7, TOP].map(|v| (r, v))) {
        assert_eq!(claim(r, v).is_bad(), claim_together(r, r, v).is_bad(), "{r} {v}");
        assert_eq!(refusals(claim(r, v)), refusals(claim_together(r, r, v)), "{r} {v}");
    }
}

#[test]
fn a_claim_of_one_register_is_replied_to_and_undone_as_a_plain_claim() {
    for (r, value) in [0, 9, 63].into_iter().flat_map(|r| [(r, 0), (r, 7), (r, 9)]) {
        let steps = |operation: Operation| {
            let mut panel = panel(2, 0);
            panel.hear(&weak(1, 1, 1, set(r, value)));
            panel.make(operation, true, Clock(5));
            let mut answers = vec![panel.carry_out(), panel.carry_out()];
            panel.hear(&weak(1, 2, 3, add(r, 1)));
            answers.extend([panel.undo(), panel.carry_out(), panel.carry_out()]);
            answers.push(panel.settle(Number::new(0, 1)));
            (answers, *panel.registers())
        };
        assert_eq!(steps(claim(r, 7)), steps(claim_together(r, r, 7)), "{r} {value}");
    }
}

#[test]
fn the_two_claims_of_one_register_are_different_requests() {
    let (plain, together) = (claim(9, 7), claim_together(9, 9, 7));
    for (held, other) in [(plain, together), (together, plain), (claim(0, 7), claim_together(0, 0, 7))] {
        let mut panel = panel(2, 0);
        assert_eq!(panel.hear(&weak(1, 1, 5, held)).refusal, 0);
        assert_eq!(panel.hear(&weak(1, 1, 5, other)).refusal, 8);
        assert_eq!(panel.hear(&weak(1, 1, 5, held)).refusal, 7);
        assert_eq!(panel.hear(&strong(1, 2, 5, held, &[])).refusal, 0);
        assert_eq!(panel.hear(&strong(1, 2, 5, other, &[])).refusal, 8);
        assert_eq!(panel.hear(&strong(1, 2, 5, held, &[])).refusal, 7);
    }
}

// ---- many random claims

/// A good claim of any one to four neighbours.
fn good_claim(random: &mut Random) -> Operation {
    let count = 1 + random.below(4);
    let r = random.below(64 - count + 1);
    claim_together(r as u8, (r + count - 1) as u8, random.one_of(&[1, 7, TOP]))
}

/// The sentence of document 02: all must be 0, then all become v and the
/// response is v; otherwise nothing changes and the response is the value of
/// the lowest one held.
#[test]
fn random_claims_do_what_the_document_says() {
    let mut random = Random::new(61);
    let mut took = [0; 4];
    for _ in 0..40_000 {
        let before = half_free(&mut random);
        let operation = good_claim(&mut random);
        let [r, q] = [operation.r as usize, operation.q as usize];
        let mut after = before;
        let response = operation.execute(&mut after);
        if before[r..=q].iter().all(|value| *value == 0) {
            assert_eq!((response, &after[r..=q]), (operation.amount, &vec![operation.amount; q - r + 1][..]));
            took[q - r] += 1;
        } else {
            let lowest = (0..64).find(|place| r <= *place && *place <= q && before[*place] != 0);
            assert_eq!((response, &after[r..=q]), (before[lowest.unwrap()], &before[r..=q]));
        }
        assert_eq!((&before[..r], &before[q + 1..]), (&after[..r], &after[q + 1..]));
        let mut board = before.map(u64::from);
        assert_eq!(naive::run(&operation, &mut board), response);
        assert_eq!(board, after.map(u64::from));
    }
    assert!(took.iter().all(|count| *count > 400), "{took:?}");
}

#[test]
fn two_overlapping_claims_never_take_one_deck_each() {
    let mut random = Random::new(62);
    let mut first_took = 0;
    for _ in 0..100_000 {
        let mut registers = half_free(&mut random);
        let (one, other) = (good_claim(&mut random), good_claim(&mut random));
        if one.q < other.r || other.q < one.r {
            continue;
        }
        let before = registers;
        one.execute(&mut registers);
        let between = registers;
        other.execute(&mut registers);
        if between != before {
            assert_eq!(registers, between, "{one:?} {other:?}");
            first_took += 1;
        }
    }
    assert!(first_took > 500, "{first_took}");
}

// ---- inputs on which a hasty reader could differ

#[test]
fn the_lowest_register_held_counts_not_the_least_value() {
    let mut registers = [0; 64];
    (registers[2], registers[3]) = (9, 3);
    let before = registers;
    assert_eq!(claim_together(1, 4, 7).execute(&mut registers), 9);
    assert_eq!(registers, before);
}

#[test]
fn a_register_that_holds_the_claimed_value_is_held() {
    let mut registers = [0; 64];
    registers[1] = 7;
    let before = registers;
    assert_eq!(claim_together(1, 2, 7).execute(&mut registers), 7);
    assert_eq!(registers, before);
}

#[test]
fn spans_at_the_limits() {
    assert_eq!(refusals(claim_together(60, 63, 7)), [0; 4]);
    assert_eq!(refusals(claim_together(0, 4, 7)), [3; 4]);
    assert_eq!(refusals(claim_together(61, 64, 7)), [3; 4]);
    assert_eq!(refusals(claim_together(5, 5, 7)), [0; 4]);
    let mut registers = [0; 64];
    assert_eq!(claim_together(60, 63, 7).execute(&mut registers), 7);
    assert_eq!((registers[59], &registers[60..]), (0, &[7; 4][..]));
}

// ---- counts, and what random shifts meet

#[test]
fn claims_are_counted_by_what_they_find() {
    let counted = |values: [u32; 4], count: u8| {
        let mut panel = panel_with(values, 30);
        let mut outcomes = ClaimOutcomes::default();
        let operation = claim_together(30, 30 + count - 1, 7);
        outcomes.carry(&mut panel, &Call::Make(operation, false, Clock(5)));
        outcomes.carry(&mut panel, &Call::RunDue);
        assert_eq!(outcomes.undone, 0);
        (outcomes.took, outcomes.held)
    };
    assert_eq!(counted([0, 0, 0, 0], 1), ([1, 0, 0, 0], [0; 4]));
    assert_eq!(counted([0, 0, 9, 0], 2), ([0, 1, 0, 0], [0; 4]));
    assert_eq!(counted([0, 0, 0, 9], 3), ([0, 0, 1, 0], [0; 4]));
    assert_eq!(counted([0, 0, 0, 0], 4), ([0, 0, 0, 1], [0; 4]));
    assert_eq!(counted([9, 0, 9, 0], 4), ([0; 4], [1, 0, 0, 0]));
    assert_eq!(counted([0, 9, 0, 0], 2), ([0; 4], [0, 1, 0, 0]));
    assert_eq!(counted([0, 0, 7, 9], 4), ([0; 4], [0, 0, 1, 0]));
    assert_eq!(counted([0, 0, 0, 9], 4), ([0; 4], [0, 0, 0, 1]));
}

#[test]
fn only_claims_that_took_count_as_undone() {
    let mut panel = panel(2, 0);
    let mut outcomes = ClaimOutcomes::default();
    let mut carry = |calls: &[Call]| {
        calls.iter().for_each(|call| outcomes.carry(&mut panel, call));
        outcomes
    };
    // It takes two, is undone, finds the second held, is undone and finds it again.
    let made = Call::Make(claim_together(1, 2, 7), false, Clock(5));
    carry(&[made, Call::CarryOut, Call::CarryOut, Call::Undo]);
    carry(&[Call::Hear(weak(1, 1, 3, set(2, 9))), Call::Undo, Call::CarryOut, Call::CarryOut]);
    let counted = carry(&[Call::Hear(weak(1, 2, 4, read(2))), Call::RunDue]);
    assert_eq!(counted, ClaimOutcomes { took: [0, 1, 0, 0], held: [0, 2, 0, 0], undone: 1 });
    // A plain claim and a set that are carried out and undone do not count.
    let plain =
        [claim(20, 7), set(21, 7), claim(20, 8)].map(|operation| Call::Make(operation, true, Clock(6)));
    carry(&plain);
    assert_eq!(carry(&[Call::RunDue, Call::Hear(weak(1, 3, 1, read(2))), Call::RunDue]).undone, 1);
}

/// What random shifts ask for.
#[derive(Debug, Default)]
struct Asked {
    /// By code 6: up to register 63, made, heard weak and heard strong.
    to_the_last: usize,
    made: usize,
    heard_weak: usize,
    heard_strong: usize,
    /// Bad ones: across register 63, q or r further over it, r above q, five,
    /// more than five, for 0, and a plain claim with q.
    across: usize,
    over: usize,
    above: usize,
    five: usize,
    more: usize,
    for_nothing: usize,
    plain_with_q: usize,
}

impl Asked {
    fn count(&mut self, call: &Call) {
        let Operation { code, r, q, amount } = match call {
            Call::Make(operation, ..) => *operation,
            Call::Hear(request) => request.operation,
            _ => return,
        };
        self.plain_with_q += (code == 4 && r < 64 && (1..64).contains(&q) && amount > 0) as usize;
        if code != 6 {
            return;
        }
        let claimed = q as i32 - r as i32 + 1;
        let (inside, few) = (r < 64 && q < 64, (1..=4).contains(&claimed));
        self.to_the_last += (few && q == 63 && amount > 0) as usize;
        self.made += matches!(call, Call::Make(..)) as usize;
        self.heard_weak += matches!(call, Call::Hear(request) if !request.strong) as usize;
        self.heard_strong += matches!(call, Call::Hear(request) if request.strong) as usize;
        self.across += (r < 64 && q >= 64 && few) as usize;
        self.over += (!inside && !few) as usize;
        self.above += (inside && r > q) as usize;
        self.five += (inside && claimed == 5) as usize;
        self.more += (inside && claimed > 5) as usize;
        self.for_nothing += (inside && few && amount == 0) as usize;
    }
}

#[test]
fn random_shifts_claim_in_every_way() {
    let (mut outcomes, mut asked) = (ClaimOutcomes::default(), Asked::default());
    for seed in 0..600 {
        let mut shift = Shift::new(seed);
        let (panels, own) = shift.shop();
        let mut panel = panel(panels, own);
        for _ in 0..200 {
            let call = shift.next_call();
            asked.count(&call);
            if !matches!(call, Call::Register(_) | Call::RequestAt(_)) {
                outcomes.carry(&mut panel, &call);
            }
        }
    }
    let ClaimOutcomes { took, held, undone } = outcomes;
    assert!([took, held].concat().iter().all(|count| *count > 60) && undone > 300, "{outcomes:?}");
    let good = [asked.to_the_last, asked.made, asked.heard_weak, asked.heard_strong];
    assert!(good.iter().all(|count| *count > 150), "{asked:?}");
    let spans = [asked.across, asked.over, asked.above, asked.five, asked.more];
    assert!(spans.iter().all(|count| *count > 20), "{asked:?}");
    assert!(asked.for_nothing > 20 && asked.plain_with_q > 20, "{asked:?}");
}

#[test]
fn random_printouts_and_long_shifts_claim_too() {
    let mut printed = ClaimOutcomes::default();
    (0..200).for_each(|seed| printed.count_messages(&printout_input(seed)));
    let mut long = ClaimOutcomes::default();
    for seed in 0..40 {
        let (panels, own, calls) = long_calls(seed);
        let mut panel = panel(panels, own);
        calls.iter().for_each(|call| long.carry(&mut panel, call));
    }
    for ClaimOutcomes { took, held, undone } in [printed, long] {
        assert!([took, held].concat().iter().all(|count| *count > 25), "{printed:?} {long:?}");
        assert!(undone > 200, "{printed:?} {long:?}");
    }
}

/// The strong claims that an input's settlements make respond otherwise: those
/// that took before and those that did not.
fn settled_otherwise(input: &[u8]) -> (usize, usize) {
    let mut panel = calls::fresh(input);
    let (mut responses, mut took, mut failed) = ([0; 512], 0, 0);
    for call in calls::of_messages(input) {
        if call != Call::RunDue {
            calls::carry(&mut panel, &call);
        }
        while panel.owed() > 0 {
            let step = calls::due_step(&panel);
            let Answer { number, response, .. } = calls::carry(&mut panel, &step);
            let (slot, request) = (number.slot(), panel.request(number.slot()));
            if response == 0 || request.operation.code != 6 || !request.strong {
                continue;
            }
            let (former, v) = (std::mem::replace(&mut responses[slot], response), request.operation.amount);
            if panel.committed().contains(&(slot as u16)) && former != 0 {
                took += (former == v && response != v) as usize;
                failed += (former != v && response == v) as usize;
            }
        }
    }
    (took, failed)
}

#[test]
fn the_example_takes_fails_and_settles_otherwise() {
    let input = stored("together.bin");
    let mut outcomes = ClaimOutcomes::default();
    outcomes.count_messages(&input);
    let ClaimOutcomes { took, held, undone } = outcomes;
    assert!([took, held].concat().iter().all(|count| *count > 2) && undone > 20, "{outcomes:?}");
    assert_eq!(settled_otherwise(&input), (1, 2));
}
