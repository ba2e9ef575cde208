//! Calls and messages in words, for a person who follows a difference.

use crate::replica::call::Call;
use crate::replica::request::*;
use crate::replica::wire::Message;

pub fn number_told(number: Number) -> String {
    format!("{}/{}", number.panel.0, number.event.0)
}

/// Numbers in a row; those that are not known are question marks.
pub fn row_told(numbers: impl IntoIterator<Item = Option<Number>>) -> String {
    let told = |number: Option<Number>| number.map_or("?".into(), number_told);
    let row: Vec<String> = numbers.into_iter().map(told).collect();
    if row.is_empty() {
        return "none".into();
    }
    row.join(" ")
}

fn operation_told(operation: &Operation) -> String {
    let Operation { code, r, q, amount } = operation;
    match *code {
        READ => format!("read {r}"),
        SET => format!("set {r} to {amount}"),
        ADD => format!("add {amount} to {r}"),
        CLAIM => format!("claim {r} for {amount}"),
        MOVE => format!("move {amount} from {r} to {q}"),
        CLAIM_TOGETHER => format!("claim {r} to {q} for {amount}"),
        _ => format!("code {code} {r} {q} {amount}"),
    }
}

pub fn request_told(request: &Request) -> String {
    let strength = if request.strong { "strong" } else { "weak" };
    let number = number_told(request.number);
    let operation = operation_told(&request.operation);
    let slots = (0..REQUESTS).filter(|slot| request.context.contains(*slot));
    let context = if request.strong {
        format!(", context {}", row_told(slots.map(|slot| Some(Number::of_slot(slot)))))
    } else {
        String::new()
    };
    format!("{strength} {number} clock {}, {operation}{context}", request.clock.0)
}

pub fn call_told(call: &Call) -> String {
    match call {
        Call::Make(operation, strong, clock) => {
            let strength = if *strong { "strong" } else { "weak" };
            format!("make {strength} at clock {}, {}", clock.0, operation_told(operation))
        }
        Call::Hear(request) => format!("hear {}", request_told(request)),
        Call::Settle(number) => format!("settle {}", number_told(*number)),
        Call::Undo => "undo".into(),
        Call::CarryOut => "carry out".into(),
        Call::RunDue => "all due steps".into(),
        Call::Register(r) => format!("show register {r}"),
        Call::RequestAt(place) => format!("show place {place}"),
    }
}

pub fn message_told(message: &Message) -> String {
    match message {
        Message::Request(request) => request_told(request),
        Message::Settlement(number) => format!("settlement {}", number_told(*number)),
    }
}
