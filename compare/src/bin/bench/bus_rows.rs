//! Rows of what comes over the bus at once: a buffer of messages, and what a
//! panel missed.

use mizzencord_compare::replica::call::Call;
use mizzencord_compare::replica::refusal::ACCEPTED;
use mizzencord_compare::replica::wire::Message;

use crate::limits::{self, Limits};
use crate::rows::{received_from_a_buffer, Row, MOST_HEARD};
use crate::sampling::time_of;
use crate::shift::{Order, Shift};
use crate::work::{Given, Work};

/// When the due steps are done.
#[derive(Clone, Copy)]
enum Steps {
    Once,
    AfterEach,
}

impl Steps {
    fn name(self) -> &'static str {
        match self {
            Steps::Once => "steps once",
            Steps::AfterEach => "steps after each",
        }
    }

    fn among(self, received: Vec<Given>) -> Vec<Given> {
        match self {
            Steps::Once => received.into_iter().chain([Given::RunDue]).collect(),
            Steps::AfterEach => received.into_iter().flat_map(|given| [given, Given::RunDue]).collect(),
        }
    }
}

/// A row of a buffer of messages that a panel receives, by the message.
fn row(what: &str, before: &[Call], messages: &[Message], steps: Steps, limits: Limits) -> Row {
    let what = format!("{what}, {}, a message", steps.name());
    let timed = steps.among(received_from_a_buffer(messages));
    let work = Work::of_given(before.iter().map(Given::from).collect(), timed, ACCEPTED);
    Row::new(&what, time_of(&what, &work).over(messages.len() as f64), limits)
}

/// A panel that holds every second request hears the others, in their order.
fn every_second() -> (Vec<Call>, Vec<Message>) {
    let requests = Shift::heard_in_order(MOST_HEARD).requests_heard();
    let (missed, held): (Vec<_>, Vec<_>) =
        requests.into_iter().partition(|request| request.clock.0.is_multiple_of(2));
    let before = held.into_iter().map(Call::Hear).chain([Call::RunDue]).collect();
    (before, missed.into_iter().map(Message::Request).collect())
}

/// A panel that made all its requests off the bus, later than all others, hears
/// these, in their order.
fn own_alone() -> (Vec<Call>, Vec<Message>) {
    let shift = Shift::of(512, Order::Falling, false);
    let own = shift.calls().into_iter().filter(|call| matches!(call, Call::Make(..)));
    let messages = Shift::heard_in_order(MOST_HEARD).messages();
    (own.chain([Call::RunDue]).collect(), messages)
}

pub fn bus_rows() -> Vec<Row> {
    let buffer = Shift { settlements: true, ..Shift::heard_in_order(MOST_HEARD) }.messages();
    let (half, missed) = every_second();
    let (own, all) = own_alone();
    let mut rows = Vec::new();
    for (steps, limits) in
        [(Steps::Once, limits::BUS_STEPS_ONCE), (Steps::AfterEach, limits::BUS_STEPS_AFTER_EACH)]
    {
        rows.push(row("a bus buffer of 504 messages", &[], &buffer, steps, limits));
        rows.push(row("a late panel that missed every second of 448", &half, &missed, steps, limits::NONE));
        rows.push(row("a late panel with 64 own requests, 448 missed", &own, &all, steps, limits::NONE));
    }
    rows
}
