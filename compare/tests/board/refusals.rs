//! The order of the refusals: each input meets several, the first one counts.

use mizzencord_compare::replica::panel::{Answer, Panel};
use mizzencord_compare::replica::request::*;

use crate::build::*;

fn refused(refusal: u8) -> Answer {
    Answer { refusal, ..Answer::default() }
}

#[test]
fn make() {
    let mut panel = panel(1, 0);
    for _ in 0..64 {
        panel.make(read(0), false, Clock(5));
    }
    assert_eq!(panel.make(set(64, 0), false, Clock(4)), refused(3));
    assert_eq!(panel.make(set(64, 0), true, Clock(5)), refused(3));
    for clock in [0, 4, 5, 6, u32::MAX] {
        assert_eq!(panel.make(set(63, 0), true, Clock(clock)), refused(6));
    }
}

#[test]
fn bad_operations() {
    let bad = [
        Operation::new(0, 0, 0, 0),
        Operation::new(6, 0, 0, 0),
        Operation::new(7, 0, 0, 0),
        Operation::new(255, 0, 0, 0),
        Operation::new(1, 64, 0, 0),
        Operation::new(5, 0, 64, 0),
        Operation::new(5, 255, 0, 0),
        Operation::new(1, 0, 1, 0),
        Operation::new(2, 0, 1, 0),
        Operation::new(3, 0, 63, 0),
        Operation::new(4, 0, 1, 1),
        Operation::new(1, 0, 0, 1),
        Operation::new(4, 0, 0, 0),
        Operation::new(5, 9, 9, 0),
    ];
    for operation in bad {
        assert_eq!(panel(2, 0).make(operation, false, Clock(0)), refused(3));
        assert_eq!(panel(2, 0).hear(&weak(1, 1, 0, operation)), refused(3));
    }
    for operation in [set(0, 0), add(0, 0), claim(0, 1), read(63), shift(0, 63, 0), shift(63, 0, 1)] {
        assert_eq!(panel(2, 0).make(operation, false, Clock(0)).refusal, 0);
        assert_eq!(panel(2, 0).hear(&weak(1, 1, 0, operation)).refusal, 0);
    }
}

#[test]
fn hear() {
    let mut panel = panel(3, 0);
    let held = strong(1, 1, 5, set(0, 1), &[(2, 1)]);
    assert_eq!(panel.hear(&held), refused(0));
    let bad_operation = Operation::new(0, 0, 0, 0);
    let itself = set_of(&[(1, 1)]);
    // 2 before all.
    for (p, e) in [(3, 1), (255, 1), (0, 0), (1, 0), (1, 65), (1, 255), (0, 65), (8, 0)] {
        let request =
            Request { number: Number::new(p, e), operation: bad_operation, context: itself, ..held };
        assert_eq!(panel.hear(&request), refused(2));
    }
    // 4 before 3, 3 before 21, 21 before 7 and 8.
    let echo = Request { number: Number::new(0, 1), operation: bad_operation, ..held };
    assert_eq!(panel.hear(&echo), refused(4));
    assert_eq!(panel.hear(&Request { operation: bad_operation, context: itself, ..held }), refused(3));
    assert_eq!(panel.hear(&Request { context: itself, ..held }), refused(21));
    assert_eq!(panel.hear(&Request { context: set_of(&[(3, 1)]), ..held }), refused(21));
    assert_eq!(panel.hear(&Request { context: set_of(&[(7, 64)]), ..held }), refused(21));
    assert_eq!(panel.hear(&Request { strong: false, ..held }), refused(21));
    assert_eq!(panel.hear(&held), refused(7));
    assert_eq!(panel.hear(&Request { clock: Clock(1), ..held }), refused(8));
    assert_eq!(panel.accepted_requests(), 1);
}

#[test]
fn an_eight_panel_shop_knows_every_panel() {
    let mut panel = panel(8, 0);
    assert_eq!(panel.hear(&strong(1, 1, 5, set(0, 1), &[(7, 64)])).refusal, 0);
    assert_eq!(panel.hear(&strong(7, 64, 5, set(0, 1), &[(7, 64)])).refusal, 21);
    assert_eq!(panel.hear(&strong(7, 64, 5, set(0, 1), &[(7, 63), (6, 64)])).refusal, 0);
}

#[test]
fn settle() {
    let mut panel = panel(3, 0);
    for (p, e) in [(3, 1), (255, 255), (0, 0), (1, 65)] {
        assert_eq!(panel.settle(Number::new(p, e)), refused(2));
    }
    assert_eq!(panel.settle(Number::new(1, 1)), refused(9));
    panel.hear(&weak(1, 1, 5, set(0, 1)));
    assert_eq!(panel.settle(Number::new(1, 1)), refused(10));
    panel.hear(&strong(2, 1, 5, set(0, 1), &[(1, 1)]));
    assert_eq!(panel.settle(Number::new(2, 1)), refused(0));
    // A settled weak request is weak first.
    assert_eq!(panel.settle(Number::new(1, 1)), refused(10));
    assert_eq!(panel.settle(Number::new(2, 1)), refused(11));
    panel.hear(&strong(2, 2, 5, set(0, 1), &[(2, 3), (1, 9), (1, 8)]));
    let missing = Answer { number: Number::new(1, 8), ..refused(12) };
    assert_eq!(panel.settle(Number::new(2, 2)), missing);
}

#[test]
fn steps() {
    let mut panel = panel(2, 0);
    assert_eq!(panel.undo(), refused(13));
    assert_eq!(panel.carry_out(), refused(15));
    panel.hear(&weak(1, 1, 5, set(0, 1)));
    assert_eq!(panel.undo(), refused(13));
    panel.carry_out();
    panel.hear(&weak(1, 2, 4, set(0, 1)));
    assert_eq!(panel.carry_out(), refused(14));
    panel.undo();
    assert_eq!(panel.undo(), refused(13));
}

#[test]
fn a_refused_fresh_panel_works_as_a_shop_of_one() {
    let (refusal, mut panel) = Panel::fresh(9, 4);
    assert_eq!(refusal, 1);
    assert_eq!(panel.hear(&weak(1, 1, 0, read(0))).refusal, 2);
    assert_eq!(panel.hear(&weak(0, 1, 0, read(0))).refusal, 4);
    assert_eq!(panel.make(read(0), false, Clock(0)).request.number, Number::new(0, 1));
}
