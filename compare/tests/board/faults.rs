//! The faults a panel could hide, each as a scenario that shows it.

use mizzencord_compare::replica::request::*;

use crate::build::*;

#[test]
fn panels_agree_at_a_tie() {
    let first = weak(0, 2, 5, set(4, 1));
    let second = weak(1, 1, 5, set(4, 2));
    let mut one = panel(3, 2);
    let mut other = panel(3, 2);
    for request in [first, second] {
        one.hear(&request);
        one.run_due();
    }
    for request in [second, first] {
        other.hear(&request);
        other.run_due();
    }
    assert_eq!(order(&one), order(&other));
    assert_eq!((one.register(4).value, other.register(4).value), (2, 2));
    assert_eq!((one.undos_done(), other.undos_done()), (0, 1));
}

#[test]
fn a_strong_number_is_known_only_when_settled() {
    let mut panel = panel(3, 0);
    panel.hear(&strong(1, 1, 3, claim(0, 1), &[]));
    panel.hear(&weak(1, 2, 4, set(1, 1)));
    let own = panel.make(claim(0, 5), true, Clock(9)).request;
    assert_eq!(own.context, set_of(&[(1, 2)]));
    // A context that names the unsettled one waits, and names it.
    panel.hear(&strong(2, 1, 5, claim(0, 3), &[(1, 1), (1, 2), (2, 7)]));
    let answer = panel.settle(Number::new(2, 1));
    assert_eq!((answer.refusal, answer.number), (12, Number::new(1, 1)));
    assert_eq!(panel.settle(Number::new(1, 1)).refusal, 0);
    let answer = panel.settle(Number::new(2, 1));
    assert_eq!((answer.refusal, answer.number), (12, Number::new(2, 7)));
    let own = panel.make(claim(0, 6), true, Clock(9)).request;
    assert_eq!(own.context, set_of(&[(1, 1), (1, 2)]));
}

#[test]
fn a_made_context_keeps_settled_numbers_of_any_clock() {
    let mut panel = panel(2, 0);
    panel.hear(&weak(1, 1, 90, set(0, 1)));
    panel.hear(&strong(1, 2, 95, set(0, 1), &[(1, 1)]));
    panel.hear(&weak(1, 3, 91, set(0, 1)));
    panel.hear(&weak(1, 4, 2, set(0, 1)));
    panel.settle(Number::new(1, 2));
    let own = panel.make(read(0), true, Clock(5)).request;
    assert_eq!(own.context, set_of(&[(1, 1), (1, 2), (1, 4)]));
    // At an equal clock the tie goes by panel: 1/5 stands behind own 0/2.
    panel.hear(&weak(1, 5, 5, set(0, 1)));
    let own = panel.make(read(0), true, Clock(5)).request;
    assert_eq!(own.context, set_of(&[(1, 1), (1, 2), (1, 4)]));
}

#[test]
fn the_undo_list_is_extended() {
    let mut panel = panel(2, 0);
    for (event, clock) in [(1, 10), (2, 20), (3, 30), (4, 40)] {
        panel.hear(&weak(1, event, clock, add(0, event as u32)));
    }
    panel.run_due();
    panel.hear(&weak(1, 5, 25, set(0, 50)));
    assert_eq!(panel.owed(), 2 + 3);
    assert_eq!(panel.undo().number, Number::new(1, 4));
    panel.hear(&weak(1, 6, 15, set(0, 60)));
    assert_eq!(panel.owed(), 2 + 5);
    assert_eq!(panel.carry_out().refusal, 14);
    assert_eq!(panel.undo().number, Number::new(1, 3));
    // What comes now stands behind all executed and undoes nothing more.
    panel.hear(&weak(1, 7, 12, add(0, 7)));
    assert_eq!(panel.undo().number, Number::new(1, 2));
    assert_eq!(panel.undo().refusal, 13);
    assert_eq!(panel.register(0).value, 1);
    assert_eq!(panel.run_due(), 6);
    assert_eq!(order(&panel), [(1, 1), (1, 7), (1, 6), (1, 2), (1, 5), (1, 3), (1, 4)]);
    assert_eq!(panel.register(0).value, 50 + 3 + 4);
    assert_eq!((panel.undos_done(), panel.carry_outs_done()), (3, 10));
}

#[test]
fn the_undo_list_is_never_cancelled() {
    // Settling 1/2 without context brings 1/2 before 1/1; both are undone
    // even where a later settlement would bring the old order back.
    let mut panel = panel(3, 0);
    panel.hear(&strong(1, 1, 1, add(0, 1), &[]));
    panel.hear(&strong(1, 2, 2, add(0, 2), &[]));
    panel.run_due();
    assert_eq!(panel.settle(Number::new(1, 2)).refusal, 0);
    assert_eq!(panel.owed(), 2 + 2);
    assert_eq!(panel.settle(Number::new(1, 1)).refusal, 0);
    assert_eq!(panel.owed(), 2 + 2);
    assert_eq!(panel.undo().number, Number::new(1, 2));
    assert_eq!(panel.undo().number, Number::new(1, 1));
    assert_eq!(panel.carry_out().number, Number::new(1, 2));
    assert_eq!(panel.carry_out().number, Number::new(1, 1));
}

#[test]
fn a_tentative_response_is_not_shown_as_stable_elsewhere() {
    let mut panel = panel(2, 0);
    let own = panel.make(claim(0, 7), true, Clock(5)).request.number;
    let answer = panel.carry_out();
    assert_eq!((answer.number, answer.response, answer.mark), (own, 7, 2));
    // Another's claim is settled first, and the own one loses.
    panel.hear(&strong(1, 1, 9, claim(0, 8), &[]));
    panel.settle(Number::new(1, 1));
    let answer = panel.settle(own);
    assert_eq!((answer.refusal, answer.response, answer.mark, answer.number), (0, 0, 0, Number::default()));
    assert_eq!(panel.undo().number, own);
    assert_eq!(panel.carry_out().number, Number::new(1, 1));
    let answer = panel.carry_out();
    assert_eq!((answer.number, answer.response, answer.mark), (own, 8, 3));
}

#[test]
fn on_the_undo_list_is_not_carried() {
    // The own request is on the board still, though to be undone.
    let mut panel = panel(2, 0);
    let own = panel.make(claim(0, 7), true, Clock(5)).request.number;
    panel.carry_out();
    panel.hear(&weak(1, 1, 1, set(0, 0)));
    assert_eq!(panel.register(0).value, 7);
    let answer = panel.settle(own);
    assert_eq!((answer.refusal, answer.mark), (0, 0));
    assert_eq!(order(&panel), [(0, 1), (1, 1)]);
    panel.undo();
    let answer = panel.carry_out();
    assert_eq!((answer.response, answer.mark), (7, 3));
}

#[test]
fn undoing_goes_newest_first() {
    let mut panel = panel(2, 0);
    panel.hear(&weak(1, 1, 5, set(4, 1)));
    panel.hear(&weak(1, 2, 6, set(4, 2)));
    panel.hear(&weak(1, 3, 7, shift(4, 0, 2)));
    panel.run_due();
    assert_eq!((panel.register(4).value, panel.register(0).value), (0, 2));
    panel.hear(&weak(1, 4, 1, read(4)));
    assert_eq!(panel.undo().number, Number::new(1, 3));
    assert_eq!((panel.register(4).value, panel.register(0).value), (2, 0));
    assert_eq!(panel.undo().number, Number::new(1, 2));
    assert_eq!(panel.register(4).value, 1);
    assert_eq!(panel.undo().number, Number::new(1, 1));
    assert_eq!(panel.register(4).value, 0);
}
