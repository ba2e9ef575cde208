//! Document 01's cases at the edges, in its order, as document 02's requests
//! (b) and (i) amend them.

use mizzencord_compare::replica::panel::Panel;
use mizzencord_compare::replica::request::*;
use mizzencord_compare::replica::wire::{parse, Parsed};

use crate::build::*;

/// The response of the last of some operations done one after another.
fn response_of(operations: &[Operation]) -> (u32, [u32; 64]) {
    let mut panel = panel(1, 0);
    let mut response = 0;
    for operation in operations {
        assert_eq!(panel.make(*operation, false, Clock(0)).refusal, 0);
        response = panel.carry_out().response;
    }
    (response, *panel.registers())
}

#[test]
fn fresh() {
    let (refusal, good) = Panel::fresh(8, 7);
    assert_eq!((refusal, good.panels(), good.own()), (0, 8, 7));
    for (panels, own) in [(9, 0), (3, 3), (0, 0), (255, 255)] {
        let (refusal, refused) = Panel::fresh(panels, own);
        assert_eq!((refusal, refused.panels(), refused.own()), (1, 1, 0));
        assert_eq!(refused.owed(), 0);
    }
}

#[test]
fn adding_the_top_takes_one_off() {
    let (response, registers) = response_of(&[set(7, 5), add(7, u32::MAX)]);
    assert_eq!((response, registers[7]), (4, 4));
}

#[test]
fn claiming_what_is_taken() {
    let (response, registers) = response_of(&[claim(7, 2), claim(7, 3)]);
    assert_eq!((response, registers[7]), (2, 2));
}

/// The cases that document 02's request (i) amends, and that of r = q.
#[test]
fn moving() {
    let (response, registers) = response_of(&[set(1, 5), shift(1, 2, 5)]);
    assert_eq!((response, registers[1], registers[2]), (5, 0, 5));
    let (response, registers) = response_of(&[set(1, 5), shift(1, 2, 6)]);
    assert_eq!((response, registers[1], registers[2]), (5, 0, 5));
    let (response, registers) = response_of(&[set(1, 5), set(2, u32::MAX), shift(1, 2, 1)]);
    assert_eq!((response, registers[1], registers[2]), (0, 5, u32::MAX));
    let (response, registers) = response_of(&[set(1, 5), shift(1, 2, 0)]);
    assert_eq!((response, registers[1], registers[2]), (0, 5, 0));
    assert_eq!(panel(1, 0).make(shift(3, 3, 0), false, Clock(0)).refusal, 3);
    assert_eq!(panel(1, 0).make(shift(3, 3, 1), true, Clock(0)).refusal, 3);
}

#[test]
fn responses_of_read_and_set() {
    let (response, registers) = response_of(&[set(63, 5), set(63, 9)]);
    assert_eq!((response, registers[63]), (5, 9));
    let (response, registers) = response_of(&[set(63, 5), read(63)]);
    assert_eq!((response, registers[63]), (5, 5));
}

#[test]
fn equal_clocks() {
    let mut panel = panel(3, 2);
    panel.hear(&weak(1, 1, 7, set(0, 1)));
    panel.hear(&weak(0, 9, 7, set(0, 2)));
    panel.hear(&weak(0, 10, 7, set(0, 3)));
    panel.hear(&weak(0, 8, 7, set(0, 4)));
    assert_eq!(order(&panel), [(0, 8), (0, 9), (0, 10), (1, 1)]);
}

/// The case that document 02's request (b) amends.
#[test]
fn own_clock() {
    let mut panel = panel(2, 1);
    for (event, clock) in [(1, 9), (2, 9), (3, 8)] {
        let answer = panel.make(set(0, 1), false, Clock(clock));
        assert_eq!((answer.refusal, answer.request), (0, weak(1, event, 9, set(0, 1))));
    }
    assert_eq!(order(&panel), [(1, 1), (1, 2), (1, 3)]);
}

#[test]
fn full_shift() {
    let mut panel = panel(1, 0);
    for event in 1..=64 {
        let answer = panel.make(add(0, 1), event % 2 == 0, Clock(0));
        assert_eq!((answer.refusal, answer.request.number), (0, Number::new(0, event)));
    }
    assert_eq!(panel.make(add(0, 1), false, Clock(0)).refusal, 6);
    assert_eq!(panel.accepted_requests(), 64);
}

#[test]
fn heard_twice() {
    let mut panel = panel(2, 0);
    let request = strong(1, 1, 5, set(0, 1), &[(0, 64), (1, 2)]);
    assert_eq!(panel.hear(&request).refusal, 0);
    assert_eq!(panel.hear(&request).refusal, 7);
    assert_eq!(panel.hear(&Request { clock: Clock(6), ..request }).refusal, 8);
    assert_eq!(panel.hear(&Request { operation: set(1, 1), ..request }).refusal, 8);
    assert_eq!(panel.hear(&Request { context: set_of(&[(1, 2)]), ..request }).refusal, 8);
    assert_eq!(panel.hear(&weak(1, 1, 5, set(0, 1))).refusal, 8);
}

#[test]
fn settled_twice() {
    let mut panel = panel(2, 0);
    let request = strong(1, 1, 5, set(0, 1), &[]);
    panel.hear(&request);
    assert_eq!(panel.settle(request.number).refusal, 0);
    assert_eq!(panel.settle(request.number).refusal, 11);
    assert_eq!(panel.hear(&request).refusal, 7);
    assert_eq!(panel.accepted_settlements(), 1);
}

#[test]
fn idle_panel() {
    let mut panel = panel(2, 0);
    assert_eq!(panel.carry_out().refusal, 15);
    assert_eq!(panel.undo().refusal, 13);
}

#[test]
fn short_and_wrong_messages() {
    let whole = [18, 0, 1, 0, 0, 1, 10, 0, 0, 0, 2, 4, 0, 0, 6, 0, 0, 0];
    assert_eq!(parse(&whole[..17], 0), Parsed::Refused(16));
    let mut long = whole;
    long[0] = 19;
    assert_eq!(parse(&long, 0), Parsed::Refused(17));
    assert_eq!(parse(&long[..17], 0), Parsed::Refused(17));
}

#[test]
fn showing() {
    let mut panel = panel(2, 0);
    let request = panel.make(set(63, 8), true, Clock(4)).request;
    panel.run_due();
    assert_eq!((panel.register(63).refusal, panel.register(63).value), (0, 8));
    assert_eq!((panel.register(64).refusal, panel.register(64).value), (3, 0));
    assert_eq!(panel.register(255).refusal, 3);
    assert_eq!(panel.request_at(1).request, request);
    for place in [0, 2, usize::MAX] {
        let answer = panel.request_at(place);
        assert_eq!((answer.refusal, answer.request), (9, Request::default()));
    }
}
