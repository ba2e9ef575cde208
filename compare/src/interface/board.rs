//! What is compared of the functions without a panel: those over bytes alone, as
//! docs/CALLS.md describes them, and the revision.

use crate::interface::header::*;
use crate::replica::calls;
use crate::replica::printout::printout;
use crate::replica::request;
use crate::replica::wire::{self, Parsed};

/// The least bytes to lend for a printout.
pub const MOST_PRINTED: usize = 438_473;

pub trait Board {
    /// The revision of the header that it was built for.
    fn version(&self) -> u32 {
        VERSION
    }

    fn print(&self, input: &[u8], out: &mut [u8]) -> usize;
    fn run(&self, calls: &[u8], out: &mut [u8]) -> Ran;
    fn read(&self, bytes: &[u8], at: usize) -> Reading;
    fn write(&self, message: &Message, out: &mut [u8]) -> Written;
}

/// The implementation of this crate.
pub struct Handwritten;

impl Board for Handwritten {
    fn print(&self, input: &[u8], out: &mut [u8]) -> usize {
        if out.len() < MOST_PRINTED {
            return 0;
        }
        let printed = printout(input);
        out[..printed.len()].copy_from_slice(&printed);
        printed.len()
    }

    fn run(&self, calls: &[u8], out: &mut [u8]) -> Ran {
        calls::run(calls, out)
    }

    fn read(&self, bytes: &[u8], at: usize) -> Reading {
        match wire::parse(bytes, at) {
            Parsed::Message(message, taken) => {
                Reading { message: (&message).into(), taken: taken as u64, refusal: 0 }
            }
            Parsed::End => Reading::default(),
            Parsed::Refused(refusal) => Reading { refusal, ..Reading::default() },
        }
    }

    fn write(&self, message: &Message, out: &mut [u8]) -> Written {
        let (refusal, bytes) = wire::write(&message.into(), out);
        Written { bytes: bytes as u64, refusal }
    }
}

/// A settlement has only its number.
impl From<&wire::Message> for Message {
    fn from(message: &wire::Message) -> Message {
        match message {
            wire::Message::Request(request) => Message { request: request.into(), settles: 0 },
            wire::Message::Settlement(number) => {
                let request = request::Request { number: *number, ..request::Request::default() };
                Message { request: (&request).into(), settles: 1 }
            }
        }
    }
}

/// Of a settlement only the number is looked at.
impl From<&Message> for wire::Message {
    fn from(message: &Message) -> wire::Message {
        if message.settles != 0 {
            wire::Message::Settlement(message.request.number.into())
        } else {
            wire::Message::Request((&message.request).into())
        }
    }
}
