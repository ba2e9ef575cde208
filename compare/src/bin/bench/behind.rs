//! This crate's panel behind functions with the signatures of the library's:
//! none is inlined in its caller, and structs cross by value as C's do.

use mizzencord_compare::interface::board::{Board, Handwritten};
use mizzencord_compare::interface::component::{Component, OwnPanel};
use mizzencord_compare::interface::header::*;

#[no_mangle]
#[inline(never)]
extern "C" fn handwritten_fresh(panel: &mut OwnPanel, panels: u8, own: u8) -> u8 {
    panel.fresh(panels, own)
}

#[no_mangle]
#[inline(never)]
extern "C" fn handwritten_invoke(panel: &mut OwnPanel, invocation: Invocation) -> Answer {
    panel.invoke(invocation)
}

#[no_mangle]
#[inline(never)]
extern "C" fn handwritten_deliver(panel: &mut OwnPanel, request: Request) -> Answer {
    panel.deliver(request)
}

#[no_mangle]
#[inline(never)]
extern "C" fn handwritten_commit(panel: &mut OwnPanel, number: Number) -> Answer {
    panel.commit(number)
}

#[no_mangle]
#[inline(never)]
extern "C" fn handwritten_undo(panel: &mut OwnPanel) -> Answer {
    panel.undo()
}

#[no_mangle]
#[inline(never)]
extern "C" fn handwritten_execute(panel: &mut OwnPanel) -> Answer {
    panel.execute()
}

#[no_mangle]
#[inline(never)]
extern "C" fn handwritten_run_due(panel: &mut OwnPanel) -> Due {
    panel.run_due()
}

/// # Safety
///
/// The pointer and the length must be those of a slice.
#[no_mangle]
#[inline(never)]
unsafe extern "C" fn handwritten_receive(
    panel: &mut OwnPanel,
    bytes: *const u8,
    length: usize,
    at: usize,
) -> Receipt {
    panel.receive(std::slice::from_raw_parts(bytes, length), at)
}

/// # Safety
///
/// The pointer and the length must be those of a slice.
#[no_mangle]
#[inline(never)]
unsafe extern "C" fn handwritten_read(bytes: *const u8, length: usize, at: usize) -> Reading {
    Handwritten.read(std::slice::from_raw_parts(bytes, length), at)
}

/// # Safety
///
/// The pointer and the length must be those of a slice.
#[no_mangle]
#[inline(never)]
unsafe extern "C" fn handwritten_write(message: Message, out: *mut u8, length: usize) -> Written {
    Handwritten.write(&message, std::slice::from_raw_parts_mut(out, length))
}

/// The functions over bytes alone, called likewise.
pub struct BoardBehind;

impl Board for BoardBehind {
    fn print(&self, input: &[u8], out: &mut [u8]) -> usize {
        Handwritten.print(input, out)
    }

    fn run(&self, calls: &[u8], out: &mut [u8]) -> Ran {
        Handwritten.run(calls, out)
    }

    fn read(&self, bytes: &[u8], at: usize) -> Reading {
        unsafe { handwritten_read(bytes.as_ptr(), bytes.len(), at) }
    }

    fn write(&self, message: &Message, out: &mut [u8]) -> Written {
        unsafe { handwritten_write(*message, out.as_mut_ptr(), out.len()) }
    }
}

/// The panel, called by these functions.
#[derive(Default)]
pub struct Behind(Box<OwnPanel>);

impl Component for Behind {
    fn fresh(&mut self, panels: u8, own: u8) -> u8 {
        handwritten_fresh(&mut self.0, panels, own)
    }

    fn invoke(&mut self, invocation: Invocation) -> Answer {
        handwritten_invoke(&mut self.0, invocation)
    }

    fn deliver(&mut self, request: Request) -> Answer {
        handwritten_deliver(&mut self.0, request)
    }

    fn commit(&mut self, number: Number) -> Answer {
        handwritten_commit(&mut self.0, number)
    }

    fn receive(&mut self, bytes: &[u8], at: usize) -> Receipt {
        unsafe { handwritten_receive(&mut self.0, bytes.as_ptr(), bytes.len(), at) }
    }

    fn undo(&mut self) -> Answer {
        handwritten_undo(&mut self.0)
    }

    fn execute(&mut self) -> Answer {
        handwritten_execute(&mut self.0)
    }

    fn run_due(&mut self) -> Due {
        handwritten_run_due(&mut self.0)
    }

    fn register(&self, k: u8) -> Value {
        self.0.register(k)
    }

    fn requests(&self) -> usize {
        self.0.requests()
    }

    fn committed(&self) -> usize {
        self.0.committed()
    }

    fn commits(&self) -> u32 {
        self.0.commits()
    }

    fn undos(&self) -> u32 {
        self.0.undos()
    }

    fn executions(&self) -> u32 {
        self.0.executions()
    }

    fn owed(&self) -> usize {
        self.0.owed()
    }

    fn at_place(&self, place: usize) -> Placed {
        self.0.at_place(place)
    }

    fn panels(&self) -> u8 {
        self.0.panels()
    }

    fn own(&self) -> u8 {
        self.0.own()
    }

    fn made(&self) -> u8 {
        self.0.made()
    }

    fn request_status(&self, number: Number) -> Status {
        self.0.request_status(number)
    }
}
