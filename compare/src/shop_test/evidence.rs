//! An account of calls and answers, with what the definition of the order and a
//! replay say of it.

use crate::replica::request::*;
use crate::shop_test::account::{Account, Sight};
use crate::shop_test::fingerprint::State;
use crate::shop_test::replay::replay;
use crate::shop_test::standing::{standing_order, Standing};

/// An account with what the definition says of some of its orders.
pub struct Evidence<'a> {
    pub account: &'a Account,
    pub end: State,
    /// What was seen of orders, and those that stood then.
    pub defined: Vec<(&'a Sight, Defined)>,
    /// The settled list at the end, as it is seen, with the responses in one
    /// replay of it.
    pub replayed: Vec<(Number, u32)>,
}

pub struct Defined {
    pub order: Vec<Number>,
    /// How many of them are settled.
    pub settled: usize,
}

/// Of an account with more orders than this, some are compared with the
/// definition, evenly spread.
const MOST_DEFINED: usize = 40;

impl<'a> Evidence<'a> {
    pub fn of(account: &'a Account) -> Evidence<'a> {
        let end = account.end();
        let every = account.sights.len() / MOST_DEFINED + 1;
        let last = account.sights.len().saturating_sub(1);
        let chosen = account.sights.iter().enumerate();
        let chosen = chosen.filter(|(at, sight)| at % every == 0 || *at == last || sight.state == end);
        let defined = chosen.map(|(_, sight)| (sight, defined(account, sight.state))).collect();
        Evidence { account, end, defined, replayed: settled_responses(account, end) }
    }
}

pub fn standing(account: &Account, state: State) -> Standing {
    let (requests, settlements) = account.accepted(state);
    standing_order(requests, settlements)
}

fn defined(account: &Account, state: State) -> Defined {
    let standing = standing(account, state);
    Defined { order: standing.numbers(), settled: standing.settled.len() }
}

/// Each settled request with its response in one replay of the settled list as
/// it is seen on the board; what is not seen is taken from the definition.
pub fn settled_responses(account: &Account, state: State) -> Vec<(Number, u32)> {
    let mut settled = standing(account, state).settled;
    if let Some(sight) = account.sight_of(state) {
        for (place, seen) in settled.iter_mut().zip(&sight.board) {
            let held = account.requests.iter().find(|request| Some(request.number) == *seen);
            *place = held.copied().unwrap_or(*place);
        }
    }
    let responses = replay(&settled).responses;
    settled.iter().map(|request| request.number).zip(responses).collect()
}
