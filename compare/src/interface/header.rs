//! The types of include/mizzencord.h as they lie in memory. A flag is a byte
//! here, since what a library hands over need not be a `bool`'s 0 or 1.

use crate::replica::request;

pub const MOST_REPLIES: usize = 64;

/// The bytes of a panel.
pub const PANEL_SIZE: usize = 47_672;

/// The revision of the header.
pub const VERSION: u32 = 1;

#[repr(C)]
#[derive(Clone, Copy, Debug, Default, PartialEq, Eq)]
pub struct Number {
    pub panel: u8,
    pub event: u8,
}

#[repr(C)]
#[derive(Clone, Copy, Debug, Default, PartialEq, Eq)]
pub struct Asked {
    pub code: u8,
    pub r: u8,
    pub q: u8,
    pub strong: u8,
    pub amount: u32,
}

#[repr(C)]
#[derive(Clone, Copy, Debug, Default, PartialEq, Eq)]
pub struct Invocation {
    pub asked: Asked,
    pub clock: u32,
}

/// The two bytes behind a request's number, which hold nothing: whatever is there,
/// it is the same.
#[repr(C)]
#[derive(Clone, Copy, Debug, Default)]
pub struct Nothing(pub [u8; 2]);

impl PartialEq for Nothing {
    fn eq(&self, _: &Nothing) -> bool {
        true
    }
}

impl Eq for Nothing {}

#[repr(C)]
#[derive(Clone, Copy, Debug, Default, PartialEq, Eq)]
pub struct Request {
    pub context: [u64; request::PANELS],
    pub asked: Asked,
    pub clock: u32,
    pub number: Number,
    pub behind: Nothing,
}

#[repr(C)]
#[derive(Clone, Copy, Debug, Default, PartialEq, Eq)]
pub struct Answer {
    pub request: Request,
    pub response: u32,
    pub number: Number,
    pub refusal: u8,
    pub mark: u8,
}

#[repr(C)]
#[derive(Clone, Copy, Debug, Default, PartialEq, Eq)]
pub struct Message {
    pub request: Request,
    pub settles: u8,
}

#[repr(C)]
#[derive(Clone, Copy, Debug, Default, PartialEq, Eq)]
pub struct Reading {
    pub message: Message,
    pub taken: u64,
    pub refusal: u8,
}

#[repr(C)]
#[derive(Clone, Copy, Debug, Default, PartialEq, Eq)]
pub struct Written {
    pub bytes: u64,
    pub refusal: u8,
}

/// An answer without its request.
#[repr(C)]
#[derive(Clone, Copy, Debug, Default, PartialEq, Eq)]
pub struct Reply {
    pub response: u32,
    pub number: Number,
    pub mark: u8,
    pub refusal: u8,
}

#[repr(C)]
#[derive(Clone, Copy, Debug, Default, PartialEq, Eq)]
pub struct Receipt {
    pub reply: Reply,
    /// The number and the kind of the message that was read.
    pub number: Number,
    pub kind: u16,
    pub taken: u32,
}

#[repr(C)]
#[derive(Clone, Copy, Debug, PartialEq, Eq)]
pub struct Due {
    pub undos: u32,
    pub executions: u32,
    pub count: u64,
    pub replies: [Reply; MOST_REPLIES],
}

impl Default for Due {
    fn default() -> Due {
        Due { undos: 0, executions: 0, count: 0, replies: [Reply::default(); MOST_REPLIES] }
    }
}

#[repr(C)]
#[derive(Clone, Copy, Debug, Default, PartialEq, Eq)]
pub struct Value {
    pub value: u32,
    pub refusal: u8,
}

#[repr(C)]
#[derive(Clone, Copy, Debug, Default, PartialEq, Eq)]
pub struct Placed {
    pub request: Request,
    pub refusal: u8,
}

#[repr(C)]
#[derive(Clone, Copy, Debug, Default, PartialEq, Eq)]
pub struct Status {
    pub response: u32,
    pub place: u32,
    pub settled: u8,
    pub awaited: u8,
    pub executed: u8,
    pub refusal: u8,
}

#[repr(C)]
#[derive(Clone, Copy, Debug, Default, PartialEq, Eq)]
pub struct Ran {
    pub ran: u64,
    pub refusal: u8,
}

/// The sizes that the header asserts.
const _: () = {
    assert!(size_of::<Number>() == 2);
    assert!(size_of::<Asked>() == 8);
    assert!(size_of::<Invocation>() == 12);
    assert!(size_of::<Request>() == 80);
    assert!(size_of::<Answer>() == 88);
    assert!(size_of::<Message>() == 88);
    assert!(size_of::<Reading>() == 104);
    assert!(size_of::<Written>() == 16);
    assert!(size_of::<Reply>() == 8);
    assert!(size_of::<Receipt>() == 16);
    assert!(size_of::<Due>() == 528);
    assert!(size_of::<Value>() == 8);
    assert!(size_of::<Placed>() == 88);
    assert!(size_of::<Status>() == 12);
    assert!(size_of::<Ran>() == 16);
};

impl From<request::Number> for Number {
    #[inline]
    fn from(number: request::Number) -> Number {
        Number { panel: number.panel.0, event: number.event.0 }
    }
}

impl From<Number> for request::Number {
    #[inline]
    fn from(number: Number) -> request::Number {
        request::Number::new(number.panel, number.event)
    }
}

impl Asked {
    #[inline]
    pub fn new(operation: request::Operation, strong: bool) -> Asked {
        let request::Operation { code, r, q, amount } = operation;
        Asked { code, r, q, strong: strong as u8, amount }
    }

    #[inline]
    pub fn operation(&self) -> request::Operation {
        request::Operation::new(self.code, self.r, self.q, self.amount)
    }
}

impl From<&request::Request> for Request {
    #[inline]
    fn from(request: &request::Request) -> Request {
        Request {
            context: request.context.0,
            asked: Asked::new(request.operation, request.strong),
            clock: request.clock.0,
            number: request.number.into(),
            behind: Nothing::default(),
        }
    }
}

impl From<&Request> for request::Request {
    #[inline]
    fn from(request: &Request) -> request::Request {
        request::Request {
            number: request.number.into(),
            clock: request::Clock(request.clock),
            operation: request.asked.operation(),
            strong: request.asked.strong != 0,
            context: request::NumberSet(request.context),
        }
    }
}
