//! What the showing calls of this crate's own panel say, call by call, against
//! the definition of the order and a replay of it.

use crate::interface::board::Board;
use crate::replica::calls;
use crate::replica::panel::Panel;
use crate::replica::request::*;
use crate::shop_test::account::Account;
use crate::shop_test::histories::{account, Shop};
use crate::shop_test::replay::replay;
use crate::shop_test::standing::standing_order;

/// What does not hold of the first panel of a shop whose calls go to a board.
pub fn found_of(board: &dyn Board, shop: &Shop) -> Option<String> {
    let list = shop.list(&shop.histories[0]);
    found(&list, &account(board, &list))
}

/// What does not hold of the panel over a list of calls that ends idle.
pub fn found(list: &[u8], account: &Account) -> Option<String> {
    let mut panel = calls::fresh(list);
    let mut settled: Vec<u16> = Vec::new();
    for (at, call) in calls::each(list).enumerate() {
        calls::carry(&mut panel, &calls::decode(call));
        let now = panel.committed();
        if !now.starts_with(&settled) {
            return Some(format!("after call {at} the settled list does not start with what it was"));
        }
        settled.extend_from_slice(&now[settled.len()..]);
    }
    at_the_end(&panel, account)
}

fn at_the_end(panel: &Panel, account: &Account) -> Option<String> {
    let standing = standing_order(&account.requests, &account.settlements);
    let shown: Vec<Request> =
        (1..=panel.accepted_requests()).map(|place| panel.request_at(place).request).collect();
    if !shown.iter().eq(standing.requests()) || panel.committed().len() != standing.settled.len() {
        return Some("the order shown is not the one that the definition gives".into());
    }
    if panel.owed() > 0 {
        return Some("the panel is not idle".into());
    }
    let replayed = replay(standing.requests()).registers;
    let wrong = (0..REGISTERS).find(|r| panel.register(*r as u8).value != replayed[*r])?;
    Some(format!("register {wrong} is not what a replay of the order leaves there"))
}
