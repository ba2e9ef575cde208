//! Replies, marks and the ways a settlement changes the order.

use mizzencord_compare::replica::panel::Answer;
use mizzencord_compare::replica::request::*;

use crate::build::*;

fn answer(panel: u8, event: u8, response: u32, mark: u8) -> Answer {
    Answer { number: Number::new(panel, event), response, mark, ..Answer::default() }
}

#[test]
fn a_weak_request_is_replied_to_once() {
    let mut panel = panel(2, 0);
    panel.make(add(3, 5), false, Clock(9));
    assert_eq!(panel.carry_out(), answer(0, 1, 5, 1));
    panel.hear(&weak(1, 1, 1, set(3, 20)));
    assert_eq!(panel.undo(), answer(0, 1, 0, 0));
    assert_eq!(panel.carry_out(), answer(1, 1, 0, 0));
    assert_eq!(panel.carry_out(), answer(0, 1, 25, 0));
}

#[test]
fn a_strong_request_is_replied_to_tentatively_each_time() {
    let mut panel = panel(2, 0);
    panel.make(add(3, 5), true, Clock(9));
    assert_eq!(panel.carry_out(), answer(0, 1, 5, 2));
    panel.hear(&weak(1, 1, 1, set(3, 20)));
    panel.undo();
    panel.carry_out();
    assert_eq!(panel.carry_out(), answer(0, 1, 25, 2));
    // Its context is empty, so it is settled before 1/1 and loses its place.
    assert_eq!(panel.settle(Number::new(0, 1)), Answer::default());
    panel.undo();
    panel.undo();
    assert_eq!(panel.carry_out(), answer(0, 1, 5, 3));
    assert_eq!(panel.carry_out(), answer(1, 1, 5, 0));
    assert_eq!(panel.awaiting(), 0);
}

#[test]
fn settling_in_place_shows_the_last_response_as_stable() {
    let mut panel = panel(2, 0);
    panel.hear(&weak(1, 1, 1, set(3, 20)));
    panel.make(add(3, 5), true, Clock(9));
    panel.run_due();
    assert_eq!(panel.awaiting(), 1);
    assert_eq!(panel.settle(Number::new(0, 1)), Answer { response: 25, mark: 3, ..Answer::default() });
    assert_eq!((panel.awaiting(), panel.owed()), (0, 0));
}

#[test]
fn a_stable_response_of_zero_has_its_mark() {
    let mut panel = panel(2, 0);
    panel.make(read(3), true, Clock(9));
    panel.run_due();
    assert_eq!(panel.settle(Number::new(0, 1)), Answer { mark: 3, ..Answer::default() });
}

#[test]
fn settling_before_the_first_carry_out_leaves_one_stable_reply() {
    let mut panel = panel(2, 0);
    panel.make(add(3, 5), true, Clock(9));
    assert_eq!(panel.settle(Number::new(0, 1)), Answer::default());
    assert_eq!(panel.carry_out(), answer(0, 1, 5, 3));
}

#[test]
fn nobody_waits_for_a_heard_request() {
    let mut panel = panel(2, 0);
    panel.hear(&strong(1, 1, 1, add(3, 5), &[]));
    assert_eq!(panel.carry_out(), answer(1, 1, 5, 0));
    assert_eq!(panel.settle(Number::new(1, 1)), Answer::default());
}

#[test]
fn a_context_is_settled_in_clock_order_and_the_request_behind_it() {
    let mut panel = panel(4, 0);
    panel.hear(&weak(1, 1, 30, add(0, 1)));
    panel.hear(&weak(2, 1, 20, add(0, 1)));
    panel.hear(&weak(3, 1, 10, add(0, 1)));
    panel.hear(&weak(3, 2, 25, add(0, 1)));
    panel.hear(&strong(2, 2, 5, add(0, 1), &[(1, 1), (2, 1), (3, 1)]));
    assert_eq!(order(&panel), [(2, 2), (3, 1), (2, 1), (3, 2), (1, 1)]);
    panel.settle(Number::new(2, 2));
    assert_eq!(order(&panel), [(3, 1), (2, 1), (1, 1), (2, 2), (3, 2)]);
    assert_eq!((panel.committed().len(), panel.tentative().len()), (4, 1));
    // A settled number in a later context stays where it is.
    panel.hear(&strong(1, 2, 1, add(0, 1), &[(1, 1), (3, 2), (2, 2)]));
    panel.settle(Number::new(1, 2));
    assert_eq!(order(&panel), [(3, 1), (2, 1), (1, 1), (2, 2), (3, 2), (1, 2)]);
    // A new request enters behind the settled ones, whatever its clock.
    panel.hear(&weak(1, 3, 0, add(0, 1)));
    assert_eq!(order(&panel).last(), Some(&(1, 3)));
}

#[test]
fn a_settlement_keeps_the_common_start() {
    let mut panel = panel(2, 0);
    panel.hear(&weak(1, 1, 1, add(0, 1)));
    panel.hear(&weak(1, 2, 2, add(0, 1)));
    panel.hear(&weak(1, 3, 3, add(0, 1)));
    panel.hear(&strong(1, 4, 4, add(0, 1), &[(1, 1), (1, 2)]));
    panel.hear(&weak(1, 5, 5, add(0, 1)));
    panel.run_due();
    panel.settle(Number::new(1, 4));
    // 1/3, 1/4 and 1/5 stand behind the common start, so all are undone.
    assert_eq!(panel.owed(), 6);
    assert_eq!(panel.executed().len(), 2);
    panel.run_due();
    panel.hear(&strong(1, 6, 6, add(0, 1), &[(1, 1), (1, 2), (1, 3), (1, 5)]));
    panel.run_due();
    panel.settle(Number::new(1, 6));
    assert_eq!(panel.owed(), 0);
}

#[test]
fn a_context_may_name_what_is_not_held_and_our_own_panel() {
    let mut panel = panel(3, 0);
    assert_eq!(panel.hear(&strong(1, 1, 1, read(0), &[(0, 1), (0, 2), (2, 64)])).refusal, 0);
    let waits =
        |panel: u8, event: u8| Answer { refusal: 12, number: Number::new(panel, event), ..Answer::default() };
    assert_eq!(panel.settle(Number::new(1, 1)), waits(0, 1));
    panel.make(read(0), false, Clock(0));
    assert_eq!(panel.settle(Number::new(1, 1)), waits(0, 2));
    panel.make(read(0), true, Clock(0));
    assert_eq!(panel.settle(Number::new(1, 1)), waits(0, 2));
    panel.settle(Number::new(0, 2));
    assert_eq!(panel.settle(Number::new(1, 1)), waits(2, 64));
    panel.hear(&weak(2, 64, 1, read(0)));
    assert_eq!(panel.settle(Number::new(1, 1)).refusal, 0);
    assert_eq!(order(&panel), [(0, 1), (0, 2), (2, 64), (1, 1)]);
}
