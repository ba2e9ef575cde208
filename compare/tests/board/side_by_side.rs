//! Two panels side by side: worked pairs whose orders and registers are written
//! out by hand from document 01 and request (j) of document 02.

use mizzencord_compare::interface::board::Handwritten;
use mizzencord_compare::replica::call::Call;
use mizzencord_compare::replica::panel::Panel;
use mizzencord_compare::replica::request::*;
use mizzencord_compare::shop_test::histories::{History, Shop};
use mizzencord_compare::shop_test::replay::replay;
use mizzencord_compare::shop_test::side_by_side::{findings, Tally};
use mizzencord_compare::shop_test::standing::standing_order;

use crate::build::*;

fn settle(panel: u8, event: u8) -> Call {
    Call::Settle(Number::new(panel, event))
}

/// Gives a panel calls, with the refusal that each must meet.
fn give(panel: &mut Panel, calls: &[(Call, u8)]) {
    for (call, refusal) in calls {
        let answer = mizzencord_compare::replica::calls::carry(panel, call);
        assert_eq!(answer.refusal, *refusal, "{call:?}");
    }
}

/// The panel after calls and refusals.
fn after(panels: u8, own: u8, calls: &[(Call, u8)]) -> Panel {
    let mut given = panel(panels, own);
    give(&mut given, calls);
    given
}

fn settled(panel: &Panel) -> Vec<(u8, u8)> {
    panel.committed().iter().map(|slot| pair(Number::of_slot(*slot as usize))).collect()
}

/// Lays panels with these calls side by side, with nothing found, and gives how
/// many pairs accepted the same at the end.
fn pairs_at_the_end(panels: u8, lists: &[(u8, &[(Call, u8)])]) -> usize {
    let history = |(own, calls): &(u8, &[(Call, u8)])| History {
        own: *own,
        calls: calls.iter().map(|(call, _)| *call).collect(),
    };
    let histories = lists.iter().map(history).collect();
    let shop = Shop { panels, histories, read: vec![0, 1, 2, 3], front: true };
    let mut tally = Tally::default();
    let found = findings(&shop.accounts(&Handwritten), &mut tally);
    assert!(found.is_empty(), "{found:?}");
    tally.end_pairs
}

#[test]
fn a_settlement_that_comes_twice_counts_once() {
    let claims = Call::Hear(strong(0, 1, 10, claim(0, 7), &[]));
    let sets = Call::Hear(weak(1, 1, 5, set(0, 2)));
    let twice = [(sets, 0), (claims, 0), (settle(0, 1), 0), (settle(0, 1), 11)];
    let once = [(claims, 0), (settle(0, 1), 0), (sets, 0)];
    for (own, calls) in [(2, &twice[..]), (3, &once[..])] {
        let mut panel = after(4, own, calls);
        panel.run_due();
        assert_eq!(order(&panel), [(0, 1), (1, 1)]);
        assert_eq!(settled(&panel), [(0, 1)]);
        assert_eq!(panel.register(0).value, 2);
    }
    assert_eq!(pairs_at_the_end(4, &[(2, &twice), (3, &once)]), 1);
}

#[test]
fn a_late_request_stands_behind_the_settled_whatever_its_clock() {
    let claims = Call::Hear(strong(0, 1, 50, claim(0, 7), &[]));
    let adds = Call::Hear(weak(1, 1, 5, add(0, 2)));
    let due = (Call::RunDue, 0);
    let late = [(claims, 0), due, (settle(0, 1), 0), due, (adds, 0), due];
    let steady = [(adds, 0), due, (claims, 0), due, (settle(0, 1), 0), due];
    let one = after(4, 2, &late);
    let other = after(4, 3, &steady);
    for panel in [&one, &other] {
        assert_eq!(order(panel), [(0, 1), (1, 1)]);
        assert_eq!(settled(panel), [(0, 1)]);
        assert_eq!(panel.register(0).value, 9);
    }
    assert_eq!((one.undos_done(), other.undos_done()), (0, 2));
    assert_eq!(pairs_at_the_end(4, &[(2, &late), (3, &steady)]), 1);
}

#[test]
fn the_order_of_the_settlements_counts() {
    let first = Call::Hear(strong(0, 1, 50, claim(3, 1), &[]));
    let second = Call::Hear(strong(1, 2, 60, claim(3, 2), &[]));
    let in_clock_order = [(first, 0), (second, 0), (settle(0, 1), 0), (settle(1, 2), 0)];
    let turned = [(first, 0), (second, 0), (settle(1, 2), 0), (settle(0, 1), 0)];
    let mut one = after(4, 2, &in_clock_order);
    let mut other = after(4, 3, &turned);
    one.run_due();
    other.run_due();
    assert_eq!((order(&one), one.register(3).value), (vec![(0, 1), (1, 2)], 1));
    assert_eq!((order(&other), other.register(3).value), (vec![(1, 2), (0, 1)], 2));
    assert_eq!(pairs_at_the_end(4, &[(2, &in_clock_order), (3, &turned)]), 0);
}

#[test]
fn who_made_a_request_plays_no_part() {
    // 1 makes the weak 1/1, which 0 hears; 0 makes the strong 0/1, whose context
    // is then 1/1, and 1 hears it.
    let added = weak(1, 1, 3, add(1, 5));
    let claimed = strong(0, 1, 9, claim(1, 4), &[(1, 1)]);
    let last = weak(2, 1, 1, set(1, 0));
    let by_0 = [
        (Call::Hear(added), 0),
        (Call::Make(claimed.operation, true, claimed.clock), 0),
        (Call::Hear(last), 0),
        (settle(0, 1), 0),
    ];
    let by_1 = [
        (Call::Make(added.operation, false, added.clock), 0),
        (Call::Hear(claimed), 0),
        (settle(0, 1), 0),
        (Call::Hear(last), 0),
        (Call::Hear(added), 4),
    ];
    for (own, calls) in [(0, &by_0[..]), (1, &by_1[..])] {
        let mut panel = after(3, own, calls);
        panel.run_due();
        assert_eq!(order(&panel), [(1, 1), (0, 1), (2, 1)]);
        assert_eq!(settled(&panel), [(1, 1), (0, 1)]);
        assert_eq!(panel.register(1).value, 0);
        assert_eq!(panel.request_at(2).request, claimed);
    }
    assert_eq!(pairs_at_the_end(3, &[(0, &by_0), (1, &by_1)]), 1);
}

#[test]
fn the_same_number_with_another_clock_is_another_request() {
    let early = Call::Hear(weak(1, 1, 4, set(0, 1)));
    let later = Call::Hear(weak(1, 1, 6, set(0, 1)));
    let between = Call::Hear(weak(0, 1, 5, set(0, 2)));
    let one = [(early, 0), (between, 0), (later, 8)];
    let other = [(later, 0), (between, 0), (early, 8)];
    assert_eq!(order(&after(4, 2, &one)), [(1, 1), (0, 1)]);
    assert_eq!(order(&after(4, 3, &other)), [(0, 1), (1, 1)]);
    assert_eq!(pairs_at_the_end(4, &[(2, &one), (3, &other)]), 0);
}

#[test]
fn a_panel_that_is_not_idle_holds_the_same_order() {
    let first = Call::Hear(weak(0, 1, 5, set(0, 3)));
    let second = Call::Hear(weak(1, 1, 4, set(0, 8)));
    let idle = after(4, 2, &[(second, 0), (first, 0), (Call::RunDue, 0)]);
    let mut busy = after(4, 3, &[(first, 0), (Call::RunDue, 0), (second, 0)]);
    assert_eq!(order(&idle), [(1, 1), (0, 1)]);
    assert_eq!(order(&busy), [(1, 1), (0, 1)]);
    assert_eq!((idle.owed(), busy.owed()), (0, 3));
    give(&mut busy, &[(Call::Undo, 0), (Call::CarryOut, 0)]);
    assert_eq!(order(&busy), [(1, 1), (0, 1)]);
    assert_eq!((idle.register(0).value, busy.register(0).value), (3, 8));
    give(&mut busy, &[(Call::CarryOut, 0), (Call::CarryOut, 15)]);
    assert_eq!(idle.registers(), busy.registers());
}

#[test]
fn a_settlement_that_waited_counts_when_it_goes_through() {
    let needed = Call::Hear(weak(1, 1, 7, add(2, 1)));
    let claims = Call::Hear(strong(0, 1, 2, claim(2, 9), &[(1, 1)]));
    let free = Call::Hear(weak(1, 2, 3, add(2, 4)));
    let waited =
        [(free, 0), (settle(0, 1), 9), (claims, 0), (settle(0, 1), 12), (needed, 0), (settle(0, 1), 0)];
    let at_once = [(needed, 0), (claims, 0), (settle(0, 1), 0), (free, 0)];
    for (own, calls) in [(2, &waited[..]), (3, &at_once[..])] {
        let mut panel = after(4, own, calls);
        panel.run_due();
        assert_eq!(order(&panel), [(1, 1), (0, 1), (1, 2)]);
        assert_eq!(settled(&panel), [(1, 1), (0, 1)]);
        assert_eq!(panel.register(2).value, 5);
        assert_eq!(panel.accepted_settlements(), 1);
    }
    assert_eq!(pairs_at_the_end(4, &[(2, &waited), (3, &at_once)]), 1);
}

#[test]
fn tied_clocks_go_by_panel_and_event() {
    let requests = [weak(2, 1, 6, add(0, 1)), weak(0, 9, 6, set(0, 5)), weak(0, 3, 6, set(0, 7))];
    let heard = requests.map(|request| (Call::Hear(request), 0));
    let turned = [heard[2], heard[0], heard[1]];
    for (own, calls) in [(1, &heard), (3, &turned)] {
        let mut panel = after(4, own, calls);
        panel.run_due();
        assert_eq!(order(&panel), [(0, 3), (0, 9), (2, 1)]);
        assert_eq!(panel.register(0).value, 6);
    }
    assert_eq!(pairs_at_the_end(4, &[(1, &heard), (3, &turned)]), 1);
}

/// A stable reply equals the response in a replay of the settled list, at once
/// and after later settlements.
#[test]
fn a_stable_reply_stays_right() {
    let mut panel = panel(2, 0);
    give(
        &mut panel,
        &[(Call::Hear(weak(1, 1, 1, set(0, 4))), 0), (Call::Make(add(0, 3), true, Clock(5)), 0)],
    );
    give(&mut panel, &[(Call::RunDue, 0)]);
    let answer = panel.settle(Number::new(0, 1));
    assert_eq!((answer.mark, answer.response), (3, 7));
    give(&mut panel, &[(Call::Hear(strong(1, 2, 2, set(0, 9), &[])), 0), (settle(1, 2), 0)]);
    assert_eq!(settled(&panel), [(1, 1), (0, 1), (1, 2)]);
    let list: Vec<Request> = panel.committed().iter().map(|slot| panel.request(*slot as usize)).collect();
    assert_eq!(replay(&list[..2]).responses, [0, 7]);
    assert_eq!(replay(&list).responses, [0, 7, 7]);
}

/// The cases of documents 01 and 02 about what operations do, in one replay.
#[test]
fn a_replay_by_hand() {
    let operations = [
        (set(0, 5), 0),
        (add(0, u32::MAX), 4),
        (read(0), 4),
        (claim(1, 2), 2),
        (claim(1, 3), 2),
        (shift(0, 2, 5), 4),
        (set(3, u32::MAX), 0),
        (shift(1, 3, 1), 0),
        (claim_together(4, 6, 9), 9),
        (claim_together(5, 8, 1), 9),
        (claim_together(7, 7, 6), 6),
        (shift(3, 1, 7), 7),
    ];
    let requests: Vec<Request> =
        (1..).zip(operations).map(|(event, (operation, _))| weak(0, event, 0, operation)).collect();
    let replay = replay(&requests);
    assert_eq!(replay.responses, operations.map(|(_, response)| response));
    assert_eq!(replay.registers[..9], [0, 9, 4, u32::MAX - 7, 9, 9, 9, 6, 0]);
    assert!(replay.registers[9..].iter().all(|value| *value == 0));
}

/// All orders of the items.
fn permutations<T: Clone>(items: &[T]) -> Vec<Vec<T>> {
    if items.is_empty() {
        return vec![vec![]];
    }
    let mut all = Vec::new();
    for place in 0..items.len() {
        let mut rest = items.to_vec();
        let first = rest.remove(place);
        all.extend(permutations(&rest).into_iter().map(|others| [vec![first.clone()], others].concat()));
    }
    all
}

#[test]
fn the_definition_looks_at_no_order_of_the_requests() {
    let requests = [
        weak(1, 1, 8, add(0, 1)),
        weak(0, 1, 8, add(0, 2)),
        strong(2, 1, 3, claim(0, 3), &[(1, 1), (0, 1)]),
        strong(0, 2, 9, claim(0, 4), &[(0, 1), (2, 1)]),
        weak(1, 2, 1, set(0, 5)),
        strong(1, 3, 1, set(0, 6), &[(1, 2)]),
    ];
    let settlements = [Number::new(2, 1), Number::new(0, 2)];
    let all = permutations(&requests);
    assert_eq!(all.len(), 720);
    for requests in all {
        let standing = standing_order(&requests, &settlements);
        let numbers: Vec<_> = standing.numbers().into_iter().map(pair).collect();
        assert_eq!(numbers, [(0, 1), (1, 1), (2, 1), (0, 2), (1, 2), (1, 3)]);
        assert_eq!((standing.settled.len(), standing.unsettled.len()), (4, 2));
    }
}

#[test]
fn the_definition_without_settlements_is_clock_order() {
    let requests = [weak(1, 1, 8, add(0, 1)), strong(0, 2, 8, add(0, 2), &[(1, 1)]), weak(2, 1, 0, read(0))];
    let standing = standing_order(&requests, &[]);
    assert_eq!(standing.settled, []);
    assert_eq!(standing.unsettled, [requests[2], requests[1], requests[0]]);
    assert_eq!(standing_order(&[], &[]), Default::default());
}
