//! Bus messages: kinds 1 to 3, little-endian, length and kind first.

use crate::replica::refusal::*;
use crate::replica::request::*;

pub const WEAK_REQUEST: u16 = 1;
pub const STRONG_REQUEST: u16 = 2;
pub const SETTLEMENT: u16 = 3;

pub const WEAK_LENGTH: usize = 18;
pub const STRONG_LENGTH: usize = 82;
pub const SETTLEMENT_LENGTH: usize = 6;

const HEAD: usize = 4;
const SPARE: usize = 13;
const CONTEXT: usize = 18;

#[derive(Clone, Copy, Debug, PartialEq, Eq)]
pub enum Message {
    Request(Request),
    Settlement(Number),
}

impl Message {
    pub fn kind(&self) -> u16 {
        match self {
            Message::Request(request) if request.strong => STRONG_REQUEST,
            Message::Request(_) => WEAK_REQUEST,
            Message::Settlement(_) => SETTLEMENT,
        }
    }

    pub fn length(&self) -> usize {
        match self {
            Message::Request(request) if request.strong => STRONG_LENGTH,
            Message::Request(_) => WEAK_LENGTH,
            Message::Settlement(_) => SETTLEMENT_LENGTH,
        }
    }

    pub fn number(&self) -> Number {
        match self {
            Message::Request(request) => request.number,
            Message::Settlement(number) => *number,
        }
    }
}

#[derive(Clone, Copy, Debug, PartialEq, Eq)]
pub enum Parsed {
    /// The message and the bytes it took.
    Message(Message, usize),
    End,
    Refused(u8),
}

/// The message that starts at a place of a run of bytes. It is inlined, as the
/// writer is, since a message that is handed on is copied whole.
#[inline]
pub fn parse(bytes: &[u8], place: usize) -> Parsed {
    if place >= bytes.len() {
        return Parsed::End;
    }
    let rest = &bytes[place..];
    if rest.len() < HEAD {
        return Parsed::Refused(CUT_SHORT);
    }
    let kind = u16_at(rest, 2);
    let length = match length_of(kind) {
        Some(length) => length,
        None => return Parsed::Refused(UNKNOWN_KIND),
    };
    if u16_at(rest, 0) as usize != length {
        return Parsed::Refused(BAD_LENGTH);
    }
    if rest.len() < length {
        return Parsed::Refused(CUT_SHORT);
    }
    let number = Number::new(rest[4], rest[5]);
    if kind == SETTLEMENT {
        return Parsed::Message(Message::Settlement(number), length);
    }
    if rest[SPARE] != 0 {
        return Parsed::Refused(SPARE_SET);
    }
    let strong = kind == STRONG_REQUEST;
    let request = Request {
        number,
        clock: Clock(u32_at(rest, 6)),
        operation: Operation::new(rest[10], rest[11], rest[12], u32_at(rest, 14)),
        strong,
        context: if strong { context_at(rest) } else { NumberSet::EMPTY },
    };
    Parsed::Message(Message::Request(request), length)
}

/// Writes a message at the start of a part. Gives the refusal and the bytes
/// written; bytes behind them are left alone, and all of them at a refusal.
#[inline]
pub fn write(message: &Message, part: &mut [u8]) -> (u8, usize) {
    if let Message::Request(request) = message {
        if !request.strong && !request.context.is_empty() {
            return (BAD_CONTEXT, 0);
        }
    }
    let length = message.length();
    if part.len() < length {
        return (NO_ROOM, 0);
    }
    let number = message.number();
    part[0..2].copy_from_slice(&(length as u16).to_le_bytes());
    part[2..4].copy_from_slice(&message.kind().to_le_bytes());
    part[4] = number.panel.0;
    part[5] = number.event.0;
    if let Message::Request(request) = message {
        write_request(request, part);
    }
    (ACCEPTED, length)
}

fn write_request(request: &Request, part: &mut [u8]) {
    let operation = &request.operation;
    part[6..10].copy_from_slice(&request.clock.0.to_le_bytes());
    part[10] = operation.code;
    part[11] = operation.r;
    part[12] = operation.q;
    part[SPARE] = 0;
    part[14..18].copy_from_slice(&operation.amount.to_le_bytes());
    if request.strong {
        for (word, bytes) in request.context.0.iter().zip(part[CONTEXT..STRONG_LENGTH].chunks_exact_mut(8)) {
            bytes.copy_from_slice(&word.to_le_bytes());
        }
    }
}

fn length_of(kind: u16) -> Option<usize> {
    match kind {
        WEAK_REQUEST => Some(WEAK_LENGTH),
        STRONG_REQUEST => Some(STRONG_LENGTH),
        SETTLEMENT => Some(SETTLEMENT_LENGTH),
        _ => None,
    }
}

fn u16_at(bytes: &[u8], place: usize) -> u16 {
    u16::from_le_bytes([bytes[place], bytes[place + 1]])
}

fn u32_at(bytes: &[u8], place: usize) -> u32 {
    let mut four = [0; 4];
    four.copy_from_slice(&bytes[place..place + 4]);
    u32::from_le_bytes(four)
}

fn context_at(bytes: &[u8]) -> NumberSet {
    let mut context = NumberSet::EMPTY;
    for (word, bytes) in context.0.iter_mut().zip(bytes[CONTEXT..STRONG_LENGTH].chunks_exact(8)) {
        let mut eight = [0; 8];
        eight.copy_from_slice(bytes);
        *word = u64::from_le_bytes(eight);
    }
    context
}

/// Adds a message to a run of bytes, unless the writer refuses it.
pub fn append(bytes: &mut Vec<u8>, message: &Message) {
    let mut part = [0; STRONG_LENGTH];
    let (refusal, length) = write(message, &mut part);
    if refusal == ACCEPTED {
        bytes.extend_from_slice(&part[..length]);
    }
}
