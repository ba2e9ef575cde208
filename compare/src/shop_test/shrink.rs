//! The least part of a shop of which something is still found, and that part in
//! words.

use std::fmt::Write;

use crate::interface::board::Board;
use crate::replica::call::Call;
use crate::replica::calls::{self, ANSWER_SIZE};
use crate::replica::panel::Answer;
use crate::replica::request::*;
use crate::shop_test::account::Account;
use crate::shop_test::histories::{History, Shop};
use crate::shop_test::side_by_side::{findings, Check, Finding, Tally};
use crate::telling::{call_told, number_told, request_told};

/// What is found of a shop whose calls go to a board.
pub fn found(board: &dyn Board, shop: &Shop) -> Vec<Finding> {
    findings(&shop.accounts(board), &mut Tally::default())
}

fn still_found(board: &dyn Board, shop: &Shop, check: Check) -> bool {
    found(board, shop).iter().any(|finding| finding.check == check)
}

/// Fewer panels, then fewer requests and settlements in all of them, then fewer
/// calls in each, as long as the same is found.
pub fn shrunk(board: &dyn Board, shop: &Shop, finding: &Finding) -> Shop {
    let found = |shop: &Shop| still_found(board, shop, finding.check);
    let mut small = shop.only(&finding.panels);
    if !found(&small) {
        small = shop.clone();
    }
    loop {
        let before = small.clone();
        drop_readings(&mut small, found);
        drop_requests(board, &mut small, found);
        drop_settlements(&mut small, found);
        for place in 0..small.histories.len() {
            drop_calls(&mut small, place, found);
        }
        if small == before {
            return small;
        }
    }
}

/// Fewer calls in each panel, as long as something is found.
pub fn with_fewer_calls(shop: &Shop, found: impl Fn(&Shop) -> bool) -> Shop {
    let mut small = shop.clone();
    drop_readings(&mut small, &found);
    for place in 0..small.histories.len() {
        drop_calls(&mut small, place, &found);
    }
    small
}

/// Takes a smaller shop if the same is found there.
fn attempt(small: &mut Shop, smaller: Shop, found: impl Fn(&Shop) -> bool) -> bool {
    let taken = smaller != *small && found(&smaller);
    if taken {
        *small = smaller;
    }
    taken
}

fn drop_readings(small: &mut Shop, found: impl Fn(&Shop) -> bool) {
    let without_front = Shop { front: false, ..small.clone() };
    attempt(small, without_front, &found);
    for place in (0..small.read.len()).rev() {
        let mut fewer = small.clone();
        fewer.read.remove(place);
        attempt(small, fewer, &found);
    }
}

/// Drops a request with all that names it, in all panels at once, so that those
/// that accepted the same still do.
fn drop_requests(board: &dyn Board, small: &mut Shop, found: impl Fn(&Shop) -> bool) {
    for slot in (0..REQUESTS).rev() {
        let accounts = small.accounts(board);
        let number = Number::of_slot(slot);
        if accounts.iter().any(|account| account.requests.iter().any(|held| held.number == number)) {
            attempt(small, without_request(small, &accounts, number), &found);
        }
    }
}

fn without_request(shop: &Shop, accounts: &[Account], number: Number) -> Shop {
    let fewer = |(history, account): (&History, &Account)| {
        let made = if history.own == number.panel.0 { accepted_at(account, number) } else { None };
        let others = history.calls.iter().enumerate().filter(|(at, _)| Some(*at) != made);
        History { own: history.own, calls: others.filter_map(|(_, call)| moved_up(call, number)).collect() }
    };
    Shop { histories: shop.histories.iter().zip(accounts).map(fewer).collect(), ..shop.clone() }
}

/// The call with which a request was accepted.
fn accepted_at(account: &Account, number: Number) -> Option<usize> {
    let place = account.requests.iter().position(|request| request.number == number)?;
    account.changes.iter().find(|change| change.state.requests == place + 1).map(|change| change.at)
}

/// A call without the request that is dropped: none if it is about that one,
/// and later events of its panel move up by one.
fn moved_up(call: &Call, dropped: Number) -> Option<Call> {
    match call {
        Call::Hear(request) if request.number == dropped => None,
        Call::Settle(number) if *number == dropped => None,
        Call::Hear(request) => {
            let mut moved = Request { number: number_moved_up(request.number, dropped), ..*request };
            let word = &mut moved.context.0[dropped.panel.0 as usize];
            *word = word_moved_up(*word, dropped.event.0);
            Some(Call::Hear(moved))
        }
        Call::Settle(number) => Some(Call::Settle(number_moved_up(*number, dropped))),
        other => Some(*other),
    }
}

fn number_moved_up(number: Number, dropped: Number) -> Number {
    let later = number.panel == dropped.panel && number.event > dropped.event;
    Number::new(number.panel.0, number.event.0 - later as u8)
}

fn word_moved_up(word: u64, event: u8) -> u64 {
    let below = (1u64 << (event - 1)) - 1;
    word & below | word >> 1 & !below
}

/// Drops all settlements of a request, in all panels at once.
fn drop_settlements(small: &mut Shop, found: impl Fn(&Shop) -> bool) {
    for slot in (0..REQUESTS).rev() {
        let mut fewer = small.clone();
        for history in &mut fewer.histories {
            history.calls.retain(|call| *call != Call::Settle(Number::of_slot(slot)));
        }
        attempt(small, fewer, &found);
    }
}

/// Drops runs of calls of one panel, long ones first.
fn drop_calls(small: &mut Shop, place: usize, found: impl Fn(&Shop) -> bool) {
    let mut length = small.histories[place].calls.len();
    while length > 0 {
        let mut start = 0;
        while start < small.histories[place].calls.len() {
            let mut fewer = small.clone();
            let calls = &mut fewer.histories[place].calls;
            calls.drain(start..(start + length).min(calls.len()));
            if !attempt(small, fewer, &found) {
                start += length;
            }
        }
        length /= 2;
    }
}

/// What is found, and the calls of each panel with their answers.
pub fn show(name: &str, board: &dyn Board, shop: &Shop, finding: &Finding) -> String {
    show_calls(&format!("{name}, {:?}: {}", finding.check, finding.told), board, shop)
}

pub fn show_calls(told: &str, board: &dyn Board, shop: &Shop) -> String {
    let mut text = format!("shop of {} panels, {told}\n", shop.panels);
    for history in &shop.histories {
        let _ = writeln!(text, "panel {}", history.own);
        show_list(&mut text, board, shop, history);
    }
    text
}

fn show_list(text: &mut String, board: &dyn Board, shop: &Shop, history: &History) {
    let list = shop.list(history);
    let mut out = vec![0; calls::count(&list) * ANSWER_SIZE];
    board.run(&list, &mut out);
    for (at, (call, answer)) in calls::each(&list).zip(out.chunks_exact(ANSWER_SIZE)).enumerate() {
        if at == history.calls.len() {
            let _ = writeln!(text, "  then, to read what it holds:");
        }
        let answer = calls::answer_in(answer).0;
        let (call, told) = (call_told(&calls::decode(call)), answer_told(&answer));
        let _ = writeln!(text, "  {at}: {call}{told}");
    }
}

fn answer_told(answer: &Answer) -> String {
    let mut told = String::new();
    if answer.refusal != 0 {
        let _ = write!(told, " -- refused {}", answer.refusal);
    }
    if answer.request.number.event.0 != 0 {
        let _ = write!(told, " -- {}", request_told(&answer.request));
    }
    if answer.number.event.0 != 0 {
        let _ = write!(told, " -- {}", number_told(answer.number));
    }
    if answer.mark != 0 || answer.response != 0 {
        let _ = write!(told, " -- responds {}, mark {}", answer.response, answer.mark);
    }
    told
}
