//! Calls that are timed on a panel, behind some that are not.

use std::hint::black_box;
use std::sync::Arc;
use std::time::Instant;

use mizzencord_compare::interface::component::Component;
use mizzencord_compare::interface::header::*;
use mizzencord_compare::replica::call::Call;
use mizzencord_compare::replica::refusal::ACCEPTED;
use mizzencord_compare::replica::request::PANELS;

use crate::behind::Behind;

/// A call with its arguments as the functions take them.
#[derive(Clone)]
pub enum Given {
    Invoke(Invocation),
    Deliver(Request),
    Commit(Number),
    Receive(Arc<[u8]>, usize),
    Undo,
    Execute,
    RunDue,
}

impl From<&Call> for Given {
    fn from(call: &Call) -> Given {
        match call {
            Call::Make(operation, strong, clock) => {
                Given::Invoke(Invocation { asked: Asked::new(*operation, *strong), clock: clock.0 })
            }
            Call::Hear(request) => Given::Deliver(request.into()),
            Call::Settle(number) => Given::Commit((*number).into()),
            Call::Undo => Given::Undo,
            Call::CarryOut => Given::Execute,
            Call::RunDue => Given::RunDue,
            Call::Register(_) | Call::RequestAt(_) => unreachable!("not timed"),
        }
    }
}

/// Gives a panel a call, and says how it is refused.
#[inline(always)]
fn give(panel: &mut impl Component, call: &Given) -> u8 {
    match call {
        Given::Invoke(asked) => black_box(&panel.invoke(*asked)).refusal,
        Given::Deliver(request) => black_box(&panel.deliver(*request)).refusal,
        Given::Commit(number) => black_box(&panel.commit(*number)).refusal,
        Given::Receive(bytes, at) => black_box(&panel.receive(bytes, *at)).reply.refusal,
        Given::Undo => black_box(&panel.undo()).refusal,
        Given::Execute => black_box(&panel.execute()).refusal,
        Given::RunDue => {
            black_box(&panel.run_due());
            ACCEPTED
        }
    }
}

#[inline(never)]
fn give_all(panel: &mut impl Component, calls: &[Given]) {
    for call in calls {
        give(panel, call);
    }
}

/// Calls on the last of eight panels: those before, and those that are timed.
struct Turn {
    before: Vec<Given>,
    timed: Vec<Given>,
}

/// Turns that take each other's place from run to run, so that no processor
/// learns the order of one by heart.
pub struct Work {
    turns: Vec<Turn>,
}

impl Work {
    /// One turn whose timed calls are all refused so, and the others accepted.
    pub fn new(before: &[Call], timed: &[Call], refusal: u8) -> Work {
        let given = |calls: &[Call]| calls.iter().map(Given::from).collect();
        Work::of_given(given(before), given(timed), refusal)
    }

    pub fn of_given(before: Vec<Given>, timed: Vec<Given>, refusal: u8) -> Work {
        let mut panel = Behind::default();
        panel.fresh(PANELS as u8, PANELS as u8 - 1);
        assert!(before.iter().all(|call| give(&mut panel, call) == ACCEPTED));
        assert!(timed.iter().all(|call| give(&mut panel, call) == refusal));
        Work { turns: vec![Turn { before, timed }] }
    }

    /// The turns of all of them.
    pub fn in_turn(works: impl IntoIterator<Item = Work>) -> Work {
        Work { turns: works.into_iter().flat_map(|work| work.turns).collect() }
    }

    /// The timed calls of a turn, in the mean.
    pub fn calls(&self) -> f64 {
        self.turns.iter().map(|turn| turn.timed.len()).sum::<usize>() as f64 / self.turns.len() as f64
    }

    /// The seconds of one run, over so many of them.
    pub fn seconds(&self, panel: &mut impl Component, runs: usize) -> f64 {
        let mut seconds = 0.0;
        for turn in self.turns.iter().cycle().take(runs) {
            panel.fresh(PANELS as u8, PANELS as u8 - 1);
            give_all(panel, &turn.before);
            let start = Instant::now();
            give_all(panel, &turn.timed);
            seconds += start.elapsed().as_secs_f64();
        }
        seconds / runs as f64
    }

    /// How many runs fill a sample: every turn as often as the others, until what
    /// is timed is long enough, or all of it too long.
    pub fn runs(&self, panel: &mut impl Component, timed: f64, whole: f64) -> usize {
        let mut runs = self.turns.len();
        loop {
            let start = Instant::now();
            if self.seconds(panel, runs) * (runs as f64) >= timed || start.elapsed().as_secs_f64() >= whole {
                return runs;
            }
            runs *= 2;
        }
    }
}
