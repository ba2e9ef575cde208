//! The libraries with the functions of include/mizzencord.h, behind safe
//! functions: the proved one, and the peer in C of the folder `peer`.

use crate::interface::board::Board;
use crate::interface::header::*;

/// The two proved archives.
#[cfg(feature = "proved")]
pub struct Proved;

/// The panel written for speed in C.
pub struct Peer;

/// Declares the functions as a trait, and takes those of each library by the
/// names that it gives them.
macro_rules! functions {
    ($($name:ident($($argument:ident: $type:ty),*) -> $result:ty;)*) => {
        /// The functions as they are linked.
        ///
        /// # Safety
        ///
        /// What the header asks of a caller.
        #[allow(clippy::missing_safety_doc)]
        pub trait Library {
            $(unsafe fn $name($($argument: $type),*) -> $result;)*
        }

        #[cfg(feature = "proved")]
        impl Library for Proved {
            $(#[inline(always)]
            unsafe fn $name($($argument: $type),*) -> $result {
                extern "C" {
                    #[link_name = concat!("mizzencord_", stringify!($name))]
                    fn linked($($argument: $type),*) -> $result;
                }
                linked($($argument),*)
            })*
        }

        impl Library for Peer {
            $(#[inline(always)]
            unsafe fn $name($($argument: $type),*) -> $result {
                extern "C" {
                    #[link_name = concat!("peer_", stringify!($name))]
                    fn linked($($argument: $type),*) -> $result;
                }
                linked($($argument),*)
            })*
        }
    };
}

functions! {
    fresh(panel: *mut u64, panels: u8, own: u8) -> u8;
    invoke(panel: *mut u64, invocation: Invocation) -> Answer;
    deliver(panel: *mut u64, request: Request) -> Answer;
    commit(panel: *mut u64, number: Number) -> Answer;
    receive(panel: *mut u64, bytes: *const u8, length: usize, at: usize) -> Receipt;
    undo(panel: *mut u64) -> Answer;
    execute(panel: *mut u64) -> Answer;
    run_due(panel: *mut u64) -> Due;

    register(panel: *const u64, k: u8) -> Value;
    requests(panel: *const u64) -> usize;
    committed(panel: *const u64) -> usize;
    commits(panel: *const u64) -> u32;
    undos(panel: *const u64) -> u32;
    executions(panel: *const u64) -> u32;
    owed(panel: *const u64) -> usize;
    at_place(panel: *const u64, place: usize) -> Placed;
    panels(panel: *const u64) -> u8;
    own(panel: *const u64) -> u8;
    made(panel: *const u64) -> u8;
    request_status(panel: *const u64, number: Number) -> Status;

    version() -> u32;

    read(bytes: *const u8, length: usize, at: usize) -> Reading;
    write(message: Message, out: *mut u8, length: usize) -> Written;
    print(input: *const u8, input_length: usize, out: *mut u8, out_length: usize) -> usize;
    run(calls: *const u8, calls_length: usize, out: *mut u8, out_length: usize) -> Ran;
}

// Safe, since the pointers and lengths are those of slices, and a library
// writes the lent bytes alone.
impl<L: Library> Board for L {
    fn version(&self) -> u32 {
        unsafe { L::version() }
    }

    fn print(&self, input: &[u8], out: &mut [u8]) -> usize {
        unsafe { L::print(input.as_ptr(), input.len(), out.as_mut_ptr(), out.len()) }
    }

    fn run(&self, calls: &[u8], out: &mut [u8]) -> Ran {
        unsafe { L::run(calls.as_ptr(), calls.len(), out.as_mut_ptr(), out.len()) }
    }

    fn read(&self, bytes: &[u8], at: usize) -> Reading {
        unsafe { L::read(bytes.as_ptr(), bytes.len(), at) }
    }

    fn write(&self, message: &Message, out: &mut [u8]) -> Written {
        unsafe { L::write(*message, out.as_mut_ptr(), out.len()) }
    }
}
