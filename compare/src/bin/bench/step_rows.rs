//! Rows of due steps inside `run_due`, and of full shifts of one operation.

use crate::limits::{self, Limits};
use crate::operations::Operations;
use crate::rows::{work_of, Row, MOST_HEARD, MOST_OWN};
use crate::sampling::time_of;
use crate::shift::{Order, Shift};
use crate::times::Times;

fn full(order: Order, settlements: bool, operations: Operations) -> Shift {
    Shift { operations, ..Shift::of(MOST_HEARD + MOST_OWN, order, settlements) }
}

/// A due step: what the shift takes longer than the one in order, by the steps
/// that it does more.
fn due_step(order: Order, operations: Operations) -> Times {
    let [many, few] = [order, Order::Rising].map(|order| full(order, false, operations));
    let [more, less] = [many, few].map(|shift| time_of("due steps", &work_of(&shift)));
    more.less(less).over(many.steps() - few.steps())
}

pub fn due_step_rows() -> Vec<Row> {
    let row = |what: &str, order, operations, limits: Limits| {
        Row::new(&format!("a due step, {what}"), due_step(order, operations), limits)
    };
    let shuffled = Order::Shuffled(0);
    vec![
        row("in a pattern", Order::Falling, Operations::OfAnyKind, limits::STEP_IN_A_PATTERN),
        row(
            "in a pattern, every second a move",
            Order::Falling,
            Operations::Moves,
            limits::STEP_IN_A_PATTERN,
        ),
        row("every second a claim of four", Order::Falling, Operations::Claims, limits::STEP_OF_CLAIMS),
        row("shuffled", shuffled, Operations::OfAnyKind, limits::STEP_SHUFFLED),
        row("shuffled, every second a move", shuffled, Operations::Moves, limits::STEP_SHUFFLED),
        row("shuffled, every second a claim of four", shuffled, Operations::Claims, limits::STEP_OF_CLAIMS),
    ]
}

pub fn full_shift_rows() -> Vec<Row> {
    let row = |what: &str, operations| {
        let work = work_of(&full(Order::Falling, true, operations));
        let what = format!("a full shift, falling, settled, every second operation a {what}");
        Row::new(&what, time_of(&what, &work), limits::SHIFT_FALLING)
    };
    vec![row("move", Operations::Moves), row("claim of four", Operations::Claims)]
}
