//! Random lists of calls, on the panel and on the naive model side by side.

use mizzencord_compare::drawing::shift::Shift;
use mizzencord_compare::replica::call::Call;
use mizzencord_compare::replica::panel::{Answer, Panel};
use mizzencord_compare::replica::request::*;

use crate::build::pair;
use crate::naive::{numbers_of, replay, Naive};

/// What the accepted calls of a list add up to.
#[derive(Default)]
struct Counts {
    requests: usize,
    settlements: usize,
    undos: usize,
    carry_outs: usize,
}

/// How often each refusal, each mark of a carry-out and each mark of a
/// settlement came up.
#[derive(Default)]
struct Seen {
    refusals: [usize; 22],
    marks: [usize; 4],
    settled_marks: [usize; 4],
    most_rolled_back: usize,
}

struct Pair {
    panel: Panel,
    naive: Naive,
    counts: Counts,
}

impl Pair {
    fn fresh(panels: u8, own: u8) -> Pair {
        Pair {
            panel: Panel::fresh(panels, own).1,
            naive: Naive::fresh(panels, own).1,
            counts: Counts::default(),
        }
    }

    /// Gives both the call and expects the same answer of them.
    fn call(&mut self, call: &Call, seen: &mut Seen) {
        let answer = match call {
            Call::Make(operation, strong, clock) => {
                let answer = self.panel.make(*operation, *strong, *clock);
                assert_eq!(answer, self.naive.make(*operation, *strong, *clock));
                self.counts.requests += (answer.refusal == 0) as usize;
                answer
            }
            Call::Hear(request) => {
                let answer = self.panel.hear(request);
                assert_eq!(answer, self.naive.hear(request));
                self.counts.requests += (answer.refusal == 0) as usize;
                answer
            }
            Call::Settle(number) => {
                let answer = self.panel.settle(*number);
                assert_eq!(answer, self.naive.settle(*number));
                self.counts.settlements += (answer.refusal == 0) as usize;
                seen.settled_marks[answer.mark as usize] += 1;
                answer
            }
            Call::Undo => self.undo(),
            Call::CarryOut => {
                let answer = self.carry_out();
                seen.marks[answer.mark as usize] += 1;
                answer
            }
            Call::RunDue => {
                let owed = self.panel.owed();
                assert_eq!(self.panel.run_due(), owed);
                let (undone, carried) = self.naive.run_due();
                assert_eq!(undone + carried, owed);
                self.counts.undos += undone;
                self.counts.carry_outs += carried;
                Answer::default()
            }
            Call::Register(r) => {
                let shown = self.panel.register(*r);
                let value = replay(&self.naive.board()).0.get(*r as usize).copied();
                assert_eq!((shown.refusal, shown.value), value.map_or((3, 0), |value| (0, value)));
                Answer { refusal: shown.refusal, ..Answer::default() }
            }
            Call::RequestAt(place) => {
                let shown = self.panel.request_at(*place);
                let order = self.naive.standing_order();
                let request = place.checked_sub(1).and_then(|index| order.get(index)).copied();
                assert_eq!(
                    (shown.refusal, shown.request),
                    request.map_or((9, Request::default()), |request| (0, request))
                );
                Answer { refusal: shown.refusal, ..Answer::default() }
            }
        };
        if answer.refusal != 0 {
            let number = if answer.refusal == 12 { answer.number } else { Number::default() };
            assert_eq!(answer, Answer { refusal: answer.refusal, number, ..Answer::default() });
        }
        seen.refusals[answer.refusal as usize] += 1;
        seen.most_rolled_back = seen.most_rolled_back.max(self.naive.to_be_rolled_back.len());
    }

    fn undo(&mut self) -> Answer {
        let answer = self.panel.undo();
        assert_eq!(answer, self.naive.undo());
        self.counts.undos += (answer.refusal == 0) as usize;
        answer
    }

    fn carry_out(&mut self) -> Answer {
        let answer = self.panel.carry_out();
        assert_eq!(answer, self.naive.carry_out());
        self.counts.carry_outs += (answer.refusal == 0) as usize;
        answer
    }

    /// Demand 3 up to now, and the panel's lists against the naive ones.
    fn check(&self) {
        let Counts { requests: n, settlements: s, undos, carry_outs } = self.counts;
        let to_undo = self.naive.to_be_rolled_back.len();
        let bound = n * n.saturating_sub(1) / 2 + s * n - s * s.saturating_sub(1) / 2;
        assert!(undos + to_undo <= bound);
        assert_eq!(carry_outs, undos + self.naive.board().len());
        assert_eq!(self.panel.accepted_requests(), n);
        assert_eq!(self.panel.accepted_settlements(), s);
        assert_eq!(self.panel.undos_done() as usize, undos);
        assert_eq!(self.panel.carry_outs_done() as usize, carry_outs);
        assert_eq!(self.panel.owed(), self.naive.owed());
        assert_eq!(*self.panel.registers(), replay(&self.naive.board()).0);
        self.check_lists();
        self.check_shop();
    }

    fn check_shop(&self) {
        let made = self.naive.last_own().map_or(0, |last| last.number.event.0);
        assert_eq!(self.panel.made(), made);
        // Events in turn, so that each number comes up every few calls.
        let turn = (self.counts.undos + self.counts.carry_outs + self.counts.requests) as u8 % 8;
        let events = (0..=65).filter(|event| event % 8 == turn || *event > 64).chain([255]);
        for event in events {
            for panel in (0..=8).chain([255]) {
                let number = Number::new(panel, event);
                assert_eq!(self.panel.status(number), self.naive.status(number), "{number:?}");
            }
        }
    }

    fn check_lists(&self) {
        let slots =
            |requests: &[Request]| -> Vec<u16> { requests.iter().map(|x| x.number.slot() as u16).collect() };
        assert_eq!(self.panel.committed(), slots(&self.naive.committed));
        assert_eq!(self.panel.tentative(), slots(&self.naive.tentative));
        assert_eq!(self.panel.executed(), slots(&self.naive.executed));
        assert_eq!(self.panel.to_be_executed(), slots(&self.naive.to_be_executed));
        assert_eq!(self.panel.board(), slots(&self.naive.board()));
        let rolled_back: Vec<u16> = self.panel.to_be_rolled_back_reversed().iter().rev().copied().collect();
        assert_eq!(rolled_back, slots(&self.naive.to_be_rolled_back));
        let mut known = self.naive.causal_ctx.clone();
        known.sort();
        assert_eq!(numbers_of(self.panel.causal_context()), known);
        let mut awaiting: Vec<_> = self.naive.awaiting.iter().map(|(x, _)| pair(x.number)).collect();
        awaiting.sort();
        let mut words = [0; 8];
        words[self.panel.own() as usize] = self.panel.awaiting();
        assert_eq!(numbers_of(&NumberSet(words)), awaiting);
    }

    /// From here only due steps: each is accepted and as many are done as
    /// were owed.
    fn drain(mut self) {
        for owed in (1..=self.panel.owed()).rev() {
            assert_eq!(self.panel.owed(), owed);
            let undo_due = !self.naive.to_be_rolled_back.is_empty();
            let answer = if undo_due { self.undo() } else { self.carry_out() };
            assert_eq!(answer.refusal, 0);
        }
        assert_eq!(self.panel.owed(), 0);
        assert_eq!((self.panel.undo().refusal, self.panel.carry_out().refusal), (13, 15));
        self.check();
        assert_eq!(*self.panel.registers(), replay(&self.naive.standing_order()).0);
    }
}

fn run(seed: u64, calls: usize, seen: &mut Seen) {
    let mut shift = Shift::new(seed);
    let (panels, own) = shift.shop();
    let mut pair = Pair::fresh(panels, own);
    for _ in 0..calls {
        let call = shift.next_call();
        pair.call(&call, seen);
        pair.check();
    }
    pair.drain();
}

#[test]
fn lists_of_calls() {
    let mut seen = Seen::default();
    for seed in 0..120 {
        run(seed, 60, &mut seen);
    }
    for seed in 1000..1012 {
        run(seed, 400, &mut seen);
    }
    let met = [0, 2, 3, 4, 6, 7, 8, 9, 10, 11, 12, 13, 14, 15, 21];
    assert!(met.iter().all(|&refusal| seen.refusals[refusal] > 0), "{:?}", seen.refusals);
    assert_eq!(seen.refusals[5], 0);
    assert!(seen.marks.iter().all(|&count| count > 20), "{:?}", seen.marks);
    assert!(seen.settled_marks[3] > 5, "{:?}", seen.settled_marks);
    assert!(seen.most_rolled_back > 20);
    println!("{:?} {:?} {:?} {}", seen.refusals, seen.marks, seen.settled_marks, seen.most_rolled_back);
}

#[test]
fn a_full_shift() {
    let mut seen = Seen::default();
    for seed in [3, 8] {
        run(2000 + seed, 1500, &mut seen);
    }
    println!("{:?} {:?} {:?} {}", seen.refusals, seen.marks, seen.settled_marks, seen.most_rolled_back);
}
