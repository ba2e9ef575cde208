//! Rows of single calls.

use mizzencord_compare::replica::call::Call;
use mizzencord_compare::replica::panel::Panel;
use mizzencord_compare::replica::refusal::*;
use mizzencord_compare::replica::request::*;
use mizzencord_compare::replica::wire::Message;

use crate::limits::{self, Limits};
use crate::rows::{received_alone, Row, MOST_HEARD, MOST_OWN};
use crate::sampling::{mean, most, time_of_fresh, times_by_place};
use crate::shift::{Order, Shift};
use crate::times::Times;
use crate::work::Work;

pub fn call_rows() -> Vec<Row> {
    let mut rows = heard_rows();
    rows.extend(settle_rows());
    rows.extend(make_rows());
    rows.extend(step_rows());
    rows.extend(refused_rows());
    rows.push(Row::new("fresh", time_of_fresh(), limits::NONE));
    rows
}

fn accepted(what: &str, before: &[Call], timed: &[Call], limits: Limits) -> Row {
    Row::a_call(what, &Work::new(before, timed, ACCEPTED), limits)
}

/// What a panel hears in order: weak requests, and the same ones strong.
fn heard(strong: bool) -> Vec<Request> {
    let requests = Shift::heard_in_order(MOST_HEARD - 1).requests_heard();
    requests.into_iter().map(|request| Request { strong, ..request }).collect()
}

fn hears(strong: bool) -> Vec<Call> {
    heard(strong).into_iter().map(Call::Hear).collect()
}

fn heard_rows() -> Vec<Row> {
    let mut rows = Vec::new();
    for (strong, what) in [(false, "a weak request"), (true, "a strong request")] {
        rows.push(accepted(&format!("hear in order, {what}"), &[], &hears(strong), limits::HEAR));
        let messages: Vec<Message> = heard(strong).into_iter().map(Message::Request).collect();
        let received = Work::of_given(Vec::new(), received_alone(&messages), ACCEPTED);
        rows.push(Row::a_call(&format!("receive, {what}"), &received, limits::HEAR));
    }
    rows
}

/// The requests of a shop in which seven panels make in turn and hear all others
/// at once, every eighth strong with the context that make gives it.
fn made_in_turn() -> Vec<Request> {
    let panels = PANELS - 1;
    let mut shop: Vec<Panel> = (0..panels).map(|own| Panel::fresh(PANELS as u8, own as u8).1).collect();
    let requests = Shift::heard_in_order(MOST_HEARD).requests_heard();
    let mut made = Vec::new();
    for (place, request) in requests.iter().enumerate() {
        let maker = place % panels;
        let spread = shop[maker].make(request.operation, place % 8 == 7, request.clock).request;
        let others = shop.iter_mut().enumerate().filter(|(own, _)| *own != maker);
        others.for_each(|(_, panel)| assert_eq!(panel.hear(&spread).refusal, ACCEPTED));
        made.push(spread);
    }
    made
}

fn settle_rows() -> Vec<Row> {
    let made = made_in_turn();
    let mut before: Vec<Call> = made.iter().copied().map(Call::Hear).collect();
    before.push(Call::RunDue);
    let strong = made.iter().filter(|request| request.strong);
    let mut settlements: Vec<Call> = strong.map(|request| Call::Settle(request.number)).collect();
    let in_order = accepted("settle, contexts as make gives them", &before, &settlements, limits::SETTLE);
    settlements.reverse();
    let latest_first = accepted("settle, the same, latest first", &before, &settlements, limits::SETTLE);
    let full = Shift::of(MOST_HEARD + MOST_OWN, Order::Rising, true);
    let (settlements, mut before): (Vec<Call>, Vec<Call>) =
        full.calls().into_iter().partition(|call| matches!(call, Call::Settle(_)));
    before.push(Call::RunDue);
    vec![in_order, latest_first, accepted("settle, a full shift's", &before, &settlements, limits::SETTLE)]
}

/// As many requests as a panel makes, with clocks from one on, all alike or
/// rising.
fn makes(strong: bool, first: usize, rising: usize) -> Vec<Call> {
    let made = |place: usize| {
        let operation = Operation::new(ADD, (place % 7) as u8, 0, 3);
        Call::Make(operation, strong, Clock((first + rising * place) as u32))
    };
    (0..MOST_OWN).map(made).collect()
}

fn make_rows() -> Vec<Row> {
    // No clock of theirs is 0.
    let held = Shift { own: 1, ..Shift::heard_in_order(MOST_HEARD) }.requests_heard();
    let held: Vec<Call> = held.into_iter().map(Call::Hear).collect();
    let behind = MOST_HEARD + 1;
    vec![
        accepted("make, weak, few held", &[], &makes(false, 0, 1), limits::MAKE_AMONG_FEW),
        accepted("make, strong, few held", &[], &makes(true, 0, 1), limits::MAKE_AMONG_FEW),
        accepted("make, strong, last of 448", &held, &makes(true, behind, 1), limits::MAKE_LAST),
        accepted("make, strong, first of 448", &held, &makes(true, 0, 0), limits::MAKE_FIRST),
    ]
}

fn step_rows() -> Vec<Row> {
    let hears = hears(false);
    let n = hears.len();
    let carried = Work::new(&hears, &vec![Call::CarryOut; n], ACCEPTED);
    let places = times_by_place("carry out", &carried);
    let at_places = |come_to: fn(&[f64]) -> f64| Times::of_all(&places, come_to).over(carried.calls());
    // At the tie with the first request it stands second, and all others are undone.
    let last = Shift::heard_in_order(n + 1).requests_heard()[n];
    let second = Call::Hear(Request { clock: Clock(0), ..last });
    let to_undo = [&hears[..], &[Call::RunDue, second]].concat();
    vec![
        Row::new("carry out, the mean of eight placements", at_places(mean), limits::CARRY_OUT),
        Row::new("carry out, the worst of them", at_places(most), limits::NONE),
        accepted("undo", &to_undo, &vec![Call::Undo; n - 1], limits::UNDO),
        accepted("all due steps, none due", &hears[..1], &vec![Call::RunDue; n], limits::NONE_DUE),
    ]
}

fn refused_rows() -> Vec<Row> {
    let hears = hears(false);
    let settled = Call::Settle(Number::new(0, 1));
    let held = Request { strong: true, ..heard(false)[0] };
    let bad = Call::Make(Operation::new(READ, 0, 0, 1), false, Clock(0));
    let refused = |what: &str, before: &[Call], timed: &[Call], refusal| {
        Row::a_call(what, &Work::new(before, timed, refusal), limits::REFUSED)
    };
    let many = |call: Call| vec![call; hears.len()];
    vec![
        refused("undo, refused", &[], &many(Call::Undo), NOTHING_TO_UNDO),
        refused("carry out, refused", &[], &many(Call::CarryOut), NOTHING_TO_DO),
        refused("make, refused as a bad operation", &[], &many(bad), BAD_OPERATION),
        refused("hear, refused as held already", &hears, &hears, HELD_ALREADY),
        refused(
            "settle, refused as settled already",
            &[Call::Hear(held), settled],
            &many(settled),
            SETTLED_ALREADY,
        ),
    ]
}
