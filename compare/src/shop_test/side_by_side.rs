//! What must hold of the panels of one shop by request (j) of document 02, as it
//! is read from the accounts of their calls and answers.

use crate::replica::refusal::REFUSALS;
use crate::replica::request::*;
use crate::shop_test::account::{may_be_one, Account, Sight};
use crate::shop_test::evidence::{settled_responses, standing, Evidence};
use crate::shop_test::fingerprint::{accepted_same, State};
use crate::shop_test::replay::replay;
use crate::telling::{number_told, row_told};

#[derive(Clone, Copy, Debug, PartialEq, Eq)]
pub enum Check {
    /// An undo names what is on top of the board, and accepted numbers are good.
    Steps,
    /// Panels that accepted the same hold the same order.
    Orders,
    /// Idle panels that accepted the same have equal registers.
    Registers,
    /// The order is the one that the requests and the settlements give.
    Definition,
    /// The registers are those of a replay of that order.
    Replay,
    /// The settled list only grows at its end.
    Growth,
    /// A stable reply is the response in one replay of the settled list.
    Stable,
}

pub const CHECKS: [Check; 7] = [
    Check::Steps,
    Check::Orders,
    Check::Registers,
    Check::Definition,
    Check::Replay,
    Check::Growth,
    Check::Stable,
];

/// What does not hold, and of which panels by their places in the shop.
#[derive(Clone, Debug)]
pub struct Finding {
    pub check: Check,
    pub panels: Vec<usize>,
    pub told: String,
}

/// What was checked.
#[derive(Clone, Copy, Debug, Default, PartialEq, Eq)]
pub struct Tally {
    pub panels: usize,
    pub calls: usize,
    pub refusals: [usize; REFUSALS],
    /// The most requests that a panel held.
    pub largest: usize,
    /// Pairs that accepted the same, at the end and before it.
    pub end_pairs: usize,
    pub middle_pairs: usize,
    /// Places of orders that were compared with the definition.
    pub places: usize,
    pub registers: usize,
    /// Stable replies, and how often one was checked at another panel.
    pub stable: usize,
    pub stable_elsewhere: usize,
}

/// At most one finding for each check.
pub fn findings(accounts: &[Account], tally: &mut Tally) -> Vec<Finding> {
    let all: Vec<Evidence> = accounts.iter().map(Evidence::of).collect();
    for account in accounts {
        tally.panels += 1;
        tally.calls += account.calls;
        tally.largest = tally.largest.max(account.requests.len());
        for (total, count) in tally.refusals.iter_mut().zip(account.refusals) {
            *total += count;
        }
    }
    CHECKS.iter().filter_map(|check| finding(*check, &all, tally)).collect()
}

fn finding(check: Check, all: &[Evidence], tally: &mut Tally) -> Option<Finding> {
    let found = |(panels, told): (Vec<usize>, String)| Finding { check, panels, told };
    let mut singles = all.iter().enumerate();
    let single = |(panel, told): (usize, Option<String>)| told.map(|told| (vec![panel], told));
    let found_at = match check {
        Check::Steps => singles.find_map(|(panel, one)| single((panel, steps(one)))),
        Check::Orders => pair(all, |one, other| orders(one, other, tally)),
        Check::Registers => pair(all, registers),
        Check::Definition => singles.find_map(|(panel, one)| single((panel, definition(one, tally)))),
        Check::Replay => singles.find_map(|(panel, one)| single((panel, replayed(one, tally)))),
        Check::Growth => singles.find_map(|(panel, one)| single((panel, growth(one)))),
        Check::Stable => singles
            .find_map(|(panel, one)| single((panel, stable_here(one, tally))))
            .or_else(|| pair(all, |one, other| stable_there(one, other, tally))),
    };
    found_at.map(found)
}

/// The first two panels of which something is told.
fn pair(
    all: &[Evidence],
    mut told: impl FnMut(&Evidence, &Evidence) -> Option<String>,
) -> Option<(Vec<usize>, String)> {
    for (place, one) in all.iter().enumerate() {
        for (further, other) in all[place + 1..].iter().enumerate() {
            if let Some(told) = told(one, other) {
                return Some((vec![place, place + 1 + further], told));
            }
        }
    }
    None
}

fn steps(one: &Evidence) -> Option<String> {
    let told = "undoes what is not on top of the board, or accepts a number that no request has";
    one.account.odd.map(|at| format!("call {at} {told}"))
}

fn orders(one: &Evidence, other: &Evidence, tally: &mut Tally) -> Option<String> {
    let whole = |sight: &&Sight| sight.whole && sight.state.requests > 0;
    for sight in one.account.sights.iter().filter(whole) {
        let same = other.account.sights.iter().filter(whole).find(|like| like.state == sight.state);
        let Some(like) = same else { continue };
        if sight.state == one.end && sight.state == other.end {
            tally.end_pairs += 1;
        } else if sight.state.requests <= one.end.requests {
            tally.middle_pairs += 1;
        }
        if !sight.agrees(like.board.iter().copied()) && same_accepted(one, other, sight.state) {
            return Some(format!(
                "both accepted the same {} requests and {} settlements and hold different orders: {} and {}",
                sight.state.requests,
                sight.state.settlements,
                row_told(sight.board.iter().copied()),
                row_told(like.board.iter().copied())
            ));
        }
    }
    None
}

fn same_accepted(one: &Evidence, other: &Evidence, state: State) -> bool {
    accepted_same(one.account.accepted(state), other.account.accepted(state))
}

fn registers(one: &Evidence, other: &Evidence) -> Option<String> {
    if one.end != other.end || !same_accepted(one, other, one.end) {
        return None;
    }
    for (r, value) in &one.account.values {
        let like = other.account.values.iter().find(|(read, _)| read == r);
        if let Some((_, other)) = like.filter(|(_, other)| other != value) {
            return Some(format!(
                "both accepted the same, are idle and have {value} and {other} in register {r}"
            ));
        }
    }
    None
}

fn definition(one: &Evidence, tally: &mut Tally) -> Option<String> {
    for (sight, defined) in &one.defined {
        let order = defined.order.iter().map(|number| Some(*number));
        tally.places += sight.board.iter().flatten().count();
        if !sight.agrees(order) {
            let part = if sight.whole { "the order" } else { "the start of the order" };
            let (settled, unsettled) = defined.order.split_at(defined.settled);
            return Some(format!(
                "{part} is {}; by the definition settled {}, unsettled {}",
                row_told(sight.board.iter().copied()),
                row_told(settled.iter().copied().map(Some)),
                row_told(unsettled.iter().copied().map(Some))
            ));
        }
    }
    None
}

/// The registers read at the end, which is idle.
fn replayed(one: &Evidence, tally: &mut Tally) -> Option<String> {
    if one.account.values.is_empty() {
        return None;
    }
    let registers = replay(standing(one.account, one.end).requests()).registers;
    tally.registers += one.account.values.len();
    let wrong = one.account.values.iter().find(|(r, value)| registers[*r as usize] != *value);
    wrong.map(|(r, value)| {
        let replayed = registers[*r as usize];
        format!("register {r} holds {value}; a replay of the order that is defined leaves {replayed} there")
    })
}

/// What has been seen at a settled place stays there.
fn growth(one: &Evidence) -> Option<String> {
    let mut kept: Vec<Option<Number>> = Vec::new();
    for (sight, defined) in &one.defined {
        for (place, seen) in sight.board.iter().enumerate() {
            let before = kept.get(place).copied().flatten();
            if !may_be_one(before, *seen) {
                let numbers = row_told([before, *seen]);
                return Some(format!("place {} of the settled list changed: {numbers}", place + 1));
            }
        }
        kept.resize(kept.len().max(defined.settled), None);
        for (keep, seen) in kept.iter_mut().zip(sight.board.iter().take(defined.settled)) {
            *keep = keep.or(*seen);
        }
    }
    None
}

/// Each stable reply against the settled list as it stood then and at the end.
fn stable_here(one: &Evidence, tally: &mut Tally) -> Option<String> {
    for reply in &one.account.stable {
        tally.stable += 1;
        let then = settled_responses(one.account, reply.state);
        for (settled, when) in [(&then, "then"), (&one.replayed, "at the end")] {
            let replayed = response_in(settled, reply.number);
            if replayed != Some(reply.response) {
                return Some(stable_told(reply.number, reply.response, replayed, when));
            }
        }
    }
    None
}

/// The stable replies of two panels that accepted the same, each against the
/// other's settled list.
fn stable_there(one: &Evidence, other: &Evidence, tally: &mut Tally) -> Option<String> {
    if one.end != other.end || !same_accepted(one, other, one.end) {
        return None;
    }
    for (here, there) in [(one, other), (other, one)] {
        for reply in &here.account.stable {
            tally.stable_elsewhere += 1;
            let replayed = response_in(&there.replayed, reply.number);
            if replayed != Some(reply.response) {
                return Some(stable_told(reply.number, reply.response, replayed, "at the other panel"));
            }
        }
    }
    None
}

fn response_in(settled: &[(Number, u32)], number: Number) -> Option<u32> {
    settled.iter().find(|(settled, _)| *settled == number).map(|(_, response)| *response)
}

fn stable_told(number: Number, response: u32, replayed: Option<u32>, when: &str) -> String {
    let replayed = replayed.map_or("nothing".into(), |replayed| replayed.to_string());
    let number = number_told(number);
    format!("the stable reply to {number} is {response}; a replay of the settled list {when} has {replayed}")
}
