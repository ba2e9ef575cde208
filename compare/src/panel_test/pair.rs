//! A panel of a library beside this crate's, both given the same calls, and
//! whether they still answer and show the same.

use std::hint::black_box;

use crate::interface::component::{Component, OwnPanel};
use crate::interface::header::*;
use crate::interface::memory::{Start, Watched};
use crate::panel_test::tally::PanelTally;
use crate::replica::call::Call;
use crate::replica::refusal::ACCEPTED;
use crate::replica::request::{self, EVENTS, REGISTERS, REQUESTS};

/// What is done with a panel.
#[derive(Clone, Debug, PartialEq, Eq)]
pub enum Step {
    /// A call that changes the panel, by its struct.
    Call(Call),
    /// Hear or settle, from bytes at a place.
    Receive(Vec<u8>, usize),
    /// Fresh on the memory as it is.
    Fresh(u8, u8),
    /// From here on a copy of the panel's bytes gets every call too.
    Copy(bool),
    /// The panel goes on in other memory.
    Move(bool),
}

/// What a call gives back.
#[derive(Clone, Debug, PartialEq, Eq)]
pub enum Outcome {
    Nothing,
    Fresh(u8),
    Answer(Answer),
    Receipt(Receipt),
    Due(Box<Due>),
}

impl Outcome {
    pub fn of(panel: &mut impl Component, step: &Step) -> Outcome {
        match step {
            Step::Call(call) => Outcome::of_call(panel, call),
            Step::Receive(bytes, at) => Outcome::Receipt(panel.receive(bytes, *at)),
            Step::Fresh(panels, own) => Outcome::Fresh(panel.fresh(*panels, *own)),
            Step::Copy(_) | Step::Move(_) => Outcome::Nothing,
        }
    }

    fn of_call(panel: &mut impl Component, call: &Call) -> Outcome {
        match call {
            Call::Make(operation, strong, clock) => Outcome::Answer(
                panel.invoke(Invocation { asked: Asked::new(*operation, *strong), clock: clock.0 }),
            ),
            Call::Hear(request) => Outcome::Answer(panel.deliver(handed_over(request, panel))),
            Call::Settle(number) => Outcome::Answer(panel.commit((*number).into())),
            Call::Undo => Outcome::Answer(panel.undo()),
            Call::CarryOut => Outcome::Answer(panel.execute()),
            Call::RunDue => Outcome::Due(Box::new(panel.run_due())),
            Call::Register(_) | Call::RequestAt(_) => Outcome::Nothing,
        }
    }

    /// Whether the call must leave the panel as it is: it is refused, or there
    /// was nothing to receive.
    fn changes_nothing(&self) -> bool {
        match self {
            Outcome::Answer(answer) => answer.refusal != ACCEPTED,
            Outcome::Receipt(receipt) => receipt.taken == 0 || receipt.reply.refusal != ACCEPTED,
            Outcome::Nothing | Outcome::Fresh(_) | Outcome::Due(_) => false,
        }
    }
}

/// The request with other bytes behind its number whenever the panel has changed,
/// at which nobody may look.
fn handed_over(request: &request::Request, panel: &impl Component) -> Request {
    let steps = panel.undos() + panel.executions();
    let behind = Nothing([panel.requests() as u8, (panel.commits() + steps) as u8]);
    Request { behind, ..request.into() }
}

/// How many calls may pass on a panel that holds many requests until it is
/// shown again, and how many are many.
const SHOWN_EVERY: usize = 8;
const MANY: usize = 64;

/// The panels whose numbers have their status shown in turn, of which the last are
/// in no shop.
const STATUS_PANELS: [u8; 10] = [0, 1, 2, 3, 4, 5, 6, 7, 8, u8::MAX];

/// The panels are too large for a stack that has several.
pub struct Pair<W> {
    library: Box<W>,
    /// Made on memory that held other bits, and given every call too.
    twin: Box<W>,
    copy: Option<Box<W>>,
    own: Box<OwnPanel>,
    not_shown: usize,
    /// How many calls pass until the panel is shown, at least.
    rest: usize,
    /// How often it was shown.
    shown: usize,
}

impl<W: Watched> Pair<W> {
    /// Both made by fresh, or what is different.
    pub fn fresh(start: &Start, (panels, own): (u8, u8), rest: usize) -> Result<Pair<W>, String> {
        let (refusal, mut library) = boxed::<W>(start, panels, own);
        let (_, twin) = boxed::<W>(&start.inverted(), panels, own);
        let (expected, own) = boxed::<OwnPanel>(start, panels, own);
        library.note();
        let pair = Pair { library, twin, copy: None, own, not_shown: 0, rest, shown: 0 };
        if refusal != expected {
            return Err(format!("fresh's refusal\n  library: {refusal}\n  handwritten: {expected}"));
        }
        if pair.library.has_strayed() {
            return Err("bytes beside the panel, written by fresh".into());
        }
        pair.same_bytes()?;
        Ok(pair)
    }

    /// The bytes of a panel come from fresh and the calls alone.
    fn same_bytes(&self) -> Result<(), String> {
        let (here, there) = (self.library.words(), self.twin.words());
        match here.iter().zip(there).position(|(one, other)| one != other) {
            None => Ok(()),
            Some(word) => {
                Err(format!("the panel's word {word}, by where it lies or what was there before fresh"))
            }
        }
    }

    /// Does a step on both, and shows both where it is time to; or what is
    /// different then.
    pub fn take(&mut self, step: &Step, tally: &mut PanelTally) -> Result<(), String> {
        match step {
            Step::Copy(odd) => self.copy = Some(Box::new(self.library.copied(*odd))),
            Step::Move(odd) => self.library.moved(*odd),
            _ => {}
        }
        let expected = Outcome::of(&mut *self.own, step);
        let twins = self.twins(step)?;
        same("the answer", &lent(&mut *self.library, step)?, &expected)?;
        same("the answer on other memory", &twins, &expected)?;
        if let Some(copy) = &mut self.copy {
            same("the answer of a copy", &lent(&mut **copy, step)?, &expected)?;
        }
        tally.count(step, &expected);
        self.watch(&expected, tally)?;
        self.not_shown += 1;
        let pause = if self.own.requests() > MANY { SHOWN_EVERY } else { 1 };
        if self.not_shown >= pause.max(self.rest) {
            self.show(tally)?;
        }
        Ok(())
    }

    /// What the twin gives back; fresh makes it on memory that holds other bits than
    /// the library's panel, which has not taken the step.
    fn twins(&mut self, step: &Step) -> Result<Outcome, String> {
        let Step::Fresh(panels, own) = step else { return lent(&mut *self.twin, step) };
        let start = Start::inverted_from(self.library.words(), self.shown % 2 == 1);
        let (refusal, twin) = boxed(&start, *panels, *own);
        self.twin = twin;
        Ok(Outcome::Fresh(refusal))
    }

    /// What the memory must be like after a call.
    fn watch(&mut self, outcome: &Outcome, tally: &mut PanelTally) -> Result<(), String> {
        if outcome.changes_nothing() {
            tally.unchanged += 1;
            if self.library.has_changed() {
                return Err("the panel's memory after a call that must change nothing".into());
            }
        } else {
            self.library.note();
        }
        if self.library.has_strayed() {
            return Err("bytes beside the panel".into());
        }
        self.same_bytes()
    }

    /// Compares all that both show, of the statuses those of one panel's numbers.
    fn show(&mut self, tally: &mut PanelTally) -> Result<(), String> {
        let turn = self.shown % STATUS_PANELS.len();
        self.show_with(&STATUS_PANELS[turn..=turn], tally)
    }

    /// Compares all that both show.
    pub fn show_all(&mut self, tally: &mut PanelTally) -> Result<(), String> {
        self.show_with(&STATUS_PANELS, tally)
    }

    fn show_with(&mut self, panels: &[u8], tally: &mut PanelTally) -> Result<(), String> {
        self.not_shown = 0;
        self.shown += 1;
        tally.shown += 1;
        tally.places += self.own.requests();
        shown_same("", &*self.library, &*self.own)?;
        for number in panels.iter().flat_map(|panel| numbers_of(*panel)) {
            tally.count_status(&self.own.request_status(number));
            status_same("", number, &*self.library, &*self.own)?;
        }
        if let Some(copy) = &self.copy {
            shown_same(" of a copy", &**copy, &*self.own)?;
            let mut numbers = panels.iter().flat_map(|panel| numbers_of(*panel));
            numbers.try_for_each(|number| status_same(" of a copy", number, &**copy, &*self.own))?;
        }
        if self.library.has_changed() {
            return Err("the panel's memory after the showing calls".into());
        }
        Ok(())
    }

    /// The library's panel as it lies in memory.
    pub fn words(&self) -> &[u64] {
        self.library.words()
    }
}

#[inline(never)]
fn boxed<W: Watched>(start: &Start, panels: u8, own: u8) -> (u8, Box<W>) {
    let (refusal, panel) = W::fresh_on(start, panels, own);
    (refusal, Box::new(panel))
}

/// What a call gives back that is lent a copy of its bytes, which it must leave
/// as they are.
fn lent(panel: &mut impl Component, step: &Step) -> Result<Outcome, String> {
    let Step::Receive(bytes, at) = step else { return Ok(Outcome::of(panel, step)) };
    let copy = bytes.clone();
    let outcome = Outcome::Receipt(panel.receive(black_box(&copy), *at));
    same("the bytes lent", black_box(&copy), bytes)?;
    Ok(outcome)
}

fn same<T: PartialEq + std::fmt::Debug>(what: &str, library: &T, handwritten: &T) -> Result<(), String> {
    if library == handwritten {
        return Ok(());
    }
    Err(format!("{what}\n  library: {library:?}\n  handwritten: {handwritten:?}"))
}

fn shown_same(whose: &str, library: &impl Component, own: &impl Component) -> Result<(), String> {
    let counts = |one: &dyn Component| [one.requests(), one.committed(), one.owed()];
    same(&format!("requests, committed, owed{whose}"), &counts(library), &counts(own))?;
    let counts = |one: &dyn Component| [one.commits(), one.undos(), one.executions()];
    same(&format!("commits, undos, executions{whose}"), &counts(library), &counts(own))?;
    let shop = |one: &dyn Component| [one.panels(), one.own(), one.made()];
    same(&format!("panels, own, made{whose}"), &shop(library), &shop(own))?;
    for k in (0..=REGISTERS as u8).chain([u8::MAX]) {
        let (one, other) = (library.register(k), own.register(k));
        if one != other {
            return same(&format!("register {k}{whose}"), &one, &other);
        }
    }
    let held = own.requests();
    for place in (0..=held + 1).chain(far_places(held)) {
        let (one, other) = (library.at_place(place), own.at_place(place));
        if one != other {
            return same(&format!("place {place}{whose}"), &one, &other);
        }
    }
    Ok(())
}

/// The numbers of a panel, and some that it has not.
fn numbers_of(panel: u8) -> impl Iterator<Item = Number> {
    let events = (0..=EVENTS as u8 + 1).chain([u8::MAX]);
    events.map(move |event| Number { panel, event })
}

fn status_same(
    whose: &str,
    number: Number,
    library: &impl Component,
    own: &impl Component,
) -> Result<(), String> {
    let (one, other) = (library.request_status(number), own.request_status(number));
    if one == other {
        return Ok(());
    }
    same(&format!("status of {}/{}{whose}", number.panel, number.event), &one, &other)
}

/// Places past the end, some of which are places of the order where only the
/// lower bytes are looked at.
fn far_places(held: usize) -> [usize; 6] {
    [REQUESTS, REQUESTS + 1, (1 << 16) + held, (1 << 32) + held, (1 << 32) + 1, usize::MAX]
}
