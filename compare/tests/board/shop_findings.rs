//! The test of panels side by side finds a difference where there is one, and
//! shrinks it.

use mizzencord_compare::interface::board::{Board, Handwritten, MOST_PRINTED};
use mizzencord_compare::interface::header::{Message, Ran, Reading, Written};
use mizzencord_compare::replica::call::Call;
use mizzencord_compare::replica::calls::{self, ANSWER_SIZE};
use mizzencord_compare::replica::panel::{Answer, MARK_STABLE};
use mizzencord_compare::replica::refusal::{ACCEPTED, NOTHING_TO_DO};
use mizzencord_compare::replica::request::*;
use mizzencord_compare::replica::{printout, wire};
use mizzencord_compare::shop_test::account::Account;
use mizzencord_compare::shop_test::histories::Shop;
use mizzencord_compare::shop_test::prints::{self, PrintFinding};
use mizzencord_compare::shop_test::shrink::{found, show, shrunk, with_fewer_calls};
use mizzencord_compare::shop_test::side_by_side::{findings, Check, Finding, Tally};
use mizzencord_compare::shop_test::ShopTest;
use mizzencord_compare::shop_test::{bus, own};

use crate::build::*;

/// Panels with an odd number lose the lowest bit of the clocks that they hear,
/// and panel 0 gives stable replies of one more.
struct Faulty;

/// Where the clock of a request begins behind the tag of a call or in a message.
const CLOCK_IN_CALL: usize = 7;
const CLOCK_IN_MESSAGE: usize = 6;

impl Board for Faulty {
    fn run(&self, list: &[u8], out: &mut [u8]) -> Ran {
        let mut changed = list.to_vec();
        if list[1] % 2 == 1 {
            let calls = changed[calls::CALLS_AT..].chunks_exact_mut(calls::CALL_SIZE);
            let heard = calls.filter(|call| matches!(calls::decode(call), Call::Hear(_)));
            heard.for_each(|call| call[CLOCK_IN_CALL] &= 0xfe);
        }
        let ran = Handwritten.run(&changed, out);
        let answers = out.chunks_exact_mut(ANSWER_SIZE).take(ran.ran as usize);
        for answer in answers.filter(|answer| answer[1] == MARK_STABLE) {
            answer[4] = answer[4].wrapping_add((list[1] == 0) as u8);
        }
        ran
    }

    fn print(&self, input: &[u8], out: &mut [u8]) -> usize {
        let mut changed = input.to_vec();
        let mut at = 2;
        while let wire::Parsed::Message(message, taken) = wire::parse(input, at) {
            if matches!(message, wire::Message::Request(_)) && input[1] % 2 == 1 {
                changed[at + CLOCK_IN_MESSAGE] &= 0xfe;
            }
            at += taken;
        }
        let printed = printout::printout(&changed);
        out[..printed.len()].copy_from_slice(&printed);
        printed.len()
    }

    fn read(&self, bytes: &[u8], at: usize) -> Reading {
        Handwritten.read(bytes, at)
    }

    fn write(&self, message: &Message, out: &mut [u8]) -> Written {
        Handwritten.write(message, out)
    }
}

/// The first seeded shop in which a check finds something, shrunk, with what is
/// then found.
fn first_found(check: Check) -> (Shop, Finding) {
    let with_check = |shop: &Shop| found(&Faulty, shop).into_iter().find(|finding| finding.check == check);
    let mut shops = (0..2000).map(|seed| bus::draw(seed).shop);
    let (shop, finding) = shops.find_map(|shop| with_check(&shop).map(|finding| (shop, finding))).unwrap();
    let small = shrunk(&Faulty, &shop, &finding);
    let finding = with_check(&small).expect("what is shrunk is still found");
    (small, finding)
}

#[test]
fn panels_that_hold_different_orders_are_found_and_shrunk() {
    let (small, finding) = first_found(Check::Orders);
    assert_eq!(small.histories.len(), 2);
    for history in &small.histories {
        let taken_in = |call: &Call| matches!(call, Call::Hear(_) | Call::Make(..));
        assert!(history.calls.len() == 2 && history.calls.iter().all(taken_in), "{:?}", history.calls);
    }
    let shown = show("faulty", &Faulty, &small, &finding);
    assert!(shown.contains("accepted the same 2 requests and 0 settlements"), "{shown}");
    assert!(found(&Handwritten, &small).is_empty());
}

#[test]
fn an_order_that_is_not_the_defined_one_is_found_and_shrunk() {
    let (small, finding) = first_found(Check::Definition);
    assert_eq!(small.histories.len(), 1);
    assert_eq!(small.histories[0].own % 2, 1);
    assert_eq!(small.histories[0].calls.len(), 2);
    assert!(finding.told.contains("by the definition settled none, unsettled"), "{}", finding.told);
}

#[test]
fn registers_that_differ_are_found() {
    let (small, finding) = first_found(Check::Registers);
    assert_eq!((small.histories.len(), small.read.len()), (2, 1));
    assert!(finding.told.contains(&format!("in register {}", small.read[0])), "{}", finding.told);
}

#[test]
fn a_wrong_stable_reply_is_found_and_shrunk() {
    let (small, finding) = first_found(Check::Stable);
    let calls = &small.histories[0].calls;
    assert_eq!((small.histories.len(), small.histories[0].own), (1, 0));
    assert!(calls.len() <= 3 && matches!(calls[0], Call::Make(_, true, _)), "{calls:?}");
    assert!(finding.told.starts_with("the stable reply to 0/1 is"), "{}", finding.told);
}

#[test]
fn printouts_that_differ_are_found_and_shrunk() {
    let mut out = vec![0; MOST_PRINTED];
    let pair = |found: &Option<PrintFinding>| matches!(found, Some(PrintFinding::Pair(_)));
    let all = (0..2000).filter_map(|seed| prints::draw(&bus::draw(seed), seed));
    let mut wrong = all.filter(|prints| pair(&prints.found(&prints.texts(&Faulty, &mut out)).0));
    let prints = wrong.next().expect("a pair with an odd panel");
    drop(wrong);
    let small = prints.shrunk(&Faulty, &mut out);
    let (finding, same) = small.found(&small.texts(&Faulty, &mut out));
    assert!(pair(&finding) && same);
    assert!(small.inputs.iter().all(|(_, messages)| messages.len() == 2), "{small:?}");
    let shown = small.show("faulty", &finding.unwrap());
    assert!(shown.starts_with(&format!("printouts of two panels of {}, faulty: register", small.panels)));
}

#[test]
fn nothing_is_found_of_this_crates_panels() {
    let mut test = ShopTest::new(&Handwritten, Some(&Handwritten));
    for seed in 0..1500 {
        assert!(test.test(seed).is_empty(), "seed {seed}");
    }
    let Tally { end_pairs, middle_pairs, stable, stable_elsewhere, refusals, .. } = test.counts.tally;
    assert!([end_pairs, stable, stable_elsewhere].iter().all(|count| *count > 1500));
    let met = [0, 2, 3, 4, 7, 8, 9, 10, 11, 12, 13, 14, 15, 21];
    assert!(met.iter().all(|number| refusals[*number] > 10), "{refusals:?}");
    assert!(middle_pairs > 500 && test.counts.cut_pairs > 100 && test.counts.printed_pairs > 300);
}

#[test]
fn a_difference_of_bytes_is_found() {
    let mut test = ShopTest::new(&Handwritten, Some(&Faulty));
    let checks = (0..20).flat_map(|seed| test.test(seed)).flat_map(|difference| difference.checks());
    assert!(checks.into_iter().any(|check| check == "Bytes"));
}

/// Reads calls with answers that no panel gives.
fn account_of(own: u8, calls: &[(Call, Answer)]) -> Account {
    let mut list = vec![4, own];
    let mut answers = Vec::new();
    for (call, answer) in calls {
        assert!(calls::append(&mut list, call));
        let mut bytes = [0; ANSWER_SIZE];
        let Answer { refusal, mark, number, response, .. } = *answer;
        bytes[..4].copy_from_slice(&[refusal, mark, number.panel.0, number.event.0]);
        bytes[4..8].copy_from_slice(&response.to_le_bytes());
        answers.extend(bytes);
    }
    Account::read(&list, &answers)
}

fn accepted(call: Call) -> (Call, Answer) {
    (call, Answer::default())
}

fn carried(panel: u8, event: u8) -> (Call, Answer) {
    (Call::CarryOut, Answer { number: Number::new(panel, event), ..Answer::default() })
}

fn undone(panel: u8, event: u8) -> (Call, Answer) {
    (Call::Undo, Answer { number: Number::new(panel, event), ..Answer::default() })
}

fn idle() -> (Call, Answer) {
    (Call::CarryOut, Answer { refusal: NOTHING_TO_DO, ..Answer::default() })
}

fn checks_that_find(accounts: &[Account]) -> Vec<Check> {
    findings(accounts, &mut Tally::default()).iter().map(|finding| finding.check).collect()
}

/// A request that is heard late comes before a settled one.
#[test]
fn a_settled_list_that_changes_is_found() {
    let settled = Call::Hear(strong(0, 1, 50, claim(0, 7), &[]));
    let late = Call::Hear(weak(1, 1, 5, add(0, 2)));
    let settle = Call::Settle(Number::new(0, 1));
    let start = [accepted(settled), accepted(settle), carried(0, 1), idle(), accepted(late)];
    let right = [&start[..], &[carried(1, 1), idle()]].concat();
    assert_eq!(checks_that_find(&[account_of(2, &right)]), []);
    let wrong = [&start[..], &[undone(0, 1), carried(1, 1), carried(0, 1), idle()]].concat();
    assert_eq!(checks_that_find(&[account_of(2, &wrong)]), [Check::Definition, Check::Growth]);
    let both = [account_of(2, &right), account_of(3, &wrong)];
    assert_eq!(checks_that_find(&both), [Check::Orders, Check::Definition, Check::Growth]);
}

#[test]
fn an_undo_of_what_is_not_on_top_is_found() {
    let heard = [(0, 1), (1, 1)].map(|(panel, event)| accepted(Call::Hear(weak(panel, event, 5, read(0)))));
    let board = [carried(0, 1), carried(1, 1)];
    let right = [&heard[..], &board, &[undone(1, 1)]].concat();
    assert_eq!(checks_that_find(&[account_of(2, &right)]), []);
    let wrong = [&heard[..], &board, &[undone(0, 1)]].concat();
    assert_eq!(checks_that_find(&[account_of(2, &wrong)]), [Check::Steps]);
    let nothing_there = [&heard[..], &[undone(0, 1)]].concat();
    assert_eq!(checks_that_find(&[account_of(2, &nothing_there)]), [Check::Steps]);
}

#[test]
fn an_accepted_number_that_no_request_has_is_found() {
    let bad = [Call::Hear(weak(0, 0, 5, read(0))), Call::Settle(Number::new(8, 1))];
    for call in bad {
        assert_eq!(checks_that_find(&[account_of(2, &[accepted(call)])]), [Check::Steps]);
    }
}

/// All due steps leave as many on the board as there are requests, so that how
/// many were undos is known, though not what they were.
#[test]
fn what_all_due_steps_put_on_the_board_is_not_known() {
    let heard = |event, clock| accepted(Call::Hear(weak(1, event, clock, read(0))));
    let steps = |count| (Call::RunDue, Answer { response: count, ..Answer::default() });
    let known = [heard(1, 1), heard(2, 9), carried(1, 1), carried(1, 2), heard(3, 5)];
    let account = account_of(2, &[&known[..], &[steps(3)]].concat());
    let sight = account.sights.last().unwrap();
    assert!(sight.whole);
    assert_eq!(sight.board, [Some(Number::new(1, 1)), None, None]);
    assert_eq!(checks_that_find(&[account]), []);
}

#[test]
fn a_stable_reply_that_another_replay_contradicts_is_found() {
    let made = strong(0, 1, 5, add(0, 3), &[]);
    let reply = |response| (Call::CarryOut, Answer { mark: MARK_STABLE, response, ..carried(0, 1).1 });
    let settle = accepted(Call::Settle(made.number));
    for (response, found) in [(3, vec![]), (4, vec![Check::Stable])] {
        let calls = [accepted(Call::Hear(made)), settle, reply(response), idle()];
        assert_eq!(checks_that_find(&[account_of(2, &calls)]), found);
    }
}

/// A board that answers nothing but refusals: the own panel then shows requests
/// that were not accepted.
struct Refusing;

impl Board for Refusing {
    fn run(&self, list: &[u8], out: &mut [u8]) -> Ran {
        out.iter_mut().step_by(ANSWER_SIZE).for_each(|refusal| *refusal = NOTHING_TO_DO);
        Ran { refusal: ACCEPTED, ran: calls::count(list) as u64 }
    }

    fn print(&self, input: &[u8], out: &mut [u8]) -> usize {
        Handwritten.print(input, out)
    }

    fn read(&self, bytes: &[u8], at: usize) -> Reading {
        Handwritten.read(bytes, at)
    }

    fn write(&self, message: &Message, out: &mut [u8]) -> Written {
        Handwritten.write(message, out)
    }
}

#[test]
fn what_the_own_panel_shows_is_compared_and_shrunk() {
    let shop = bus::draw(1).shop.only(&[0]);
    assert_eq!(own::found_of(&Handwritten, &shop), None);
    let told = "the order shown is not the one that the definition gives";
    assert_eq!(own::found_of(&Refusing, &shop).as_deref(), Some(told));
    let small = with_fewer_calls(&shop, |shop| own::found_of(&Refusing, shop).is_some());
    assert!(shop.calls() > 1 && small.calls() == 1 && small.read.is_empty(), "{small:?}");
}
