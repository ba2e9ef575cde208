//! A panel of a library, lent as a pointer to its memory.

use std::marker::PhantomData;

use crate::interface::component::Component;
use crate::interface::header::*;
use crate::interface::library::Library;
use crate::interface::memory::{Start, Watched, WORDS};

/// How many words are watched before and behind a panel, and what they hold.
const GUARD: usize = 16;
const GUARD_WORD: u64 = 0x5ca1_ab1e_0ddb_a115;

/// A panel of a library in memory of its own, which only fresh and the calls write. There is
/// none that fresh did not make.
pub struct Panel<L> {
    memory: Vec<u64>,
    /// The first word of the panel.
    first: usize,
    noted: Vec<u64>,
    library: PhantomData<L>,
}

impl<L> Panel<L> {
    /// Memory with guards; the calls may have it once fresh did.
    fn lying(words: &[u64], odd: bool) -> Panel<L> {
        let mut memory = vec![GUARD_WORD; WORDS + 2 * GUARD + 1];
        let even = (memory.as_ptr() as usize / 8).is_multiple_of(2);
        let first = GUARD + (even == odd) as usize;
        memory[first..first + WORDS].copy_from_slice(words);
        Panel { memory, first, noted: words.to_vec(), library: PhantomData }
    }

    #[inline]
    fn at(&self) -> *const u64 {
        self.memory[self.first..].as_ptr()
    }

    #[inline]
    fn at_mut(&mut self) -> *mut u64 {
        self.memory[self.first..].as_mut_ptr()
    }
}

// Safe, since the pointer is that of a panel's whole memory, which fresh has
// written before anybody can call it, and is lent for the call alone.
impl<L: Library> Component for Panel<L> {
    #[inline]
    fn fresh(&mut self, panels: u8, own: u8) -> u8 {
        unsafe { L::fresh(self.at_mut(), panels, own) }
    }

    #[inline]
    fn invoke(&mut self, invocation: Invocation) -> Answer {
        unsafe { L::invoke(self.at_mut(), invocation) }
    }

    #[inline]
    fn deliver(&mut self, request: Request) -> Answer {
        unsafe { L::deliver(self.at_mut(), request) }
    }

    #[inline]
    fn commit(&mut self, number: Number) -> Answer {
        unsafe { L::commit(self.at_mut(), number) }
    }

    #[inline]
    fn receive(&mut self, bytes: &[u8], at: usize) -> Receipt {
        unsafe { L::receive(self.at_mut(), bytes.as_ptr(), bytes.len(), at) }
    }

    #[inline]
    fn undo(&mut self) -> Answer {
        unsafe { L::undo(self.at_mut()) }
    }

    #[inline]
    fn execute(&mut self) -> Answer {
        unsafe { L::execute(self.at_mut()) }
    }

    #[inline]
    fn run_due(&mut self) -> Due {
        unsafe { L::run_due(self.at_mut()) }
    }

    fn register(&self, k: u8) -> Value {
        unsafe { L::register(self.at(), k) }
    }

    fn requests(&self) -> usize {
        unsafe { L::requests(self.at()) }
    }

    fn committed(&self) -> usize {
        unsafe { L::committed(self.at()) }
    }

    fn commits(&self) -> u32 {
        unsafe { L::commits(self.at()) }
    }

    fn undos(&self) -> u32 {
        unsafe { L::undos(self.at()) }
    }

    fn executions(&self) -> u32 {
        unsafe { L::executions(self.at()) }
    }

    fn owed(&self) -> usize {
        unsafe { L::owed(self.at()) }
    }

    fn at_place(&self, place: usize) -> Placed {
        unsafe { L::at_place(self.at(), place) }
    }

    fn panels(&self) -> u8 {
        unsafe { L::panels(self.at()) }
    }

    fn own(&self) -> u8 {
        unsafe { L::own(self.at()) }
    }

    fn made(&self) -> u8 {
        unsafe { L::made(self.at()) }
    }

    fn request_status(&self, number: Number) -> Status {
        unsafe { L::request_status(self.at(), number) }
    }
}

impl<L: Library> Watched for Panel<L> {
    fn fresh_on(start: &Start, panels: u8, own: u8) -> (u8, Panel<L>) {
        let mut panel = Panel::lying(&start.words(), start.odd);
        let refusal = panel.fresh(panels, own);
        (refusal, panel)
    }

    fn copied(&self, odd: bool) -> Panel<L> {
        Panel::lying(self.words(), odd)
    }

    fn moved(&mut self, odd: bool) {
        let there = self.copied(odd);
        self.memory.fill(!GUARD_WORD);
        *self = there;
    }

    fn note(&mut self) {
        self.noted.copy_from_slice(&self.memory[self.first..self.first + WORDS]);
    }

    fn has_changed(&self) -> bool {
        self.noted != self.words()
    }

    fn has_strayed(&self) -> bool {
        let (before, rest) = self.memory.split_at(self.first);
        before.iter().chain(&rest[WORDS..]).any(|word| *word != GUARD_WORD)
    }

    fn words(&self) -> &[u64] {
        &self.memory[self.first..self.first + WORDS]
    }
}
