//! The comparison panel by panel: planted faults are found and shrunk to the
//! calls that show them, and this crate's panel does not differ from itself.

use mizzencord_compare::interface::component::{Component, OwnPanel};
use mizzencord_compare::interface::header::*;
use mizzencord_compare::interface::memory::{Start, Watched};
use mizzencord_compare::panel_test;
use mizzencord_compare::panel_test::case::PanelCase;
use mizzencord_compare::panel_test::draw;
use mizzencord_compare::panel_test::pair::Step;
use mizzencord_compare::panel_test::tally::PanelTally;
use mizzencord_compare::replica::call::Call;
use mizzencord_compare::replica::refusal::*;
use mizzencord_compare::replica::wire::{self, Message};

use crate::build::{claim, set, strong, weak};

const OWED: u8 = 1;
const TAKEN: u8 = 2;
const BEHIND: u8 = 3;
const CHANGED: u8 = 4;
const STRAYED: u8 = 5;
const COPIED: u8 = 6;
const LEFT: u8 = 7;
const LEFT_LATE: u8 = 8;
const LAST: u8 = 9;

/// This crate's panel with a fault: owed without the undos; the bytes of a
/// message that cannot be read taken; a mark behind the replies; memory that
/// changes at a refused call, or beside the panel; a copy that begins afresh;
/// bytes that fresh leaves, or that a call brings back; no status of an event 64.
#[derive(Clone, Default)]
struct Faulty<const FAULT: u8> {
    panel: OwnPanel,
    refused: bool,
    left: [u64; 1],
}

impl<const FAULT: u8> Faulty<FAULT> {
    fn noted(&mut self, refusal: u8) {
        self.refused |= refusal == NOT_HERE;
    }
}

impl<const FAULT: u8> Component for Faulty<FAULT> {
    fn fresh(&mut self, panels: u8, own: u8) -> u8 {
        self.panel.fresh(panels, own)
    }
    fn invoke(&mut self, invocation: Invocation) -> Answer {
        self.panel.invoke(invocation)
    }
    fn deliver(&mut self, request: Request) -> Answer {
        self.panel.deliver(request)
    }
    fn commit(&mut self, number: Number) -> Answer {
        let answer = self.panel.commit(number);
        self.noted(answer.refusal);
        answer
    }
    fn receive(&mut self, bytes: &[u8], at: usize) -> Receipt {
        let mut receipt = self.panel.receive(bytes, at);
        self.noted(receipt.reply.refusal);
        if FAULT == TAKEN && receipt.reply.refusal == SPARE_SET {
            receipt.taken = bytes[at] as u32;
        }
        receipt
    }
    fn undo(&mut self) -> Answer {
        self.panel.undo()
    }
    fn execute(&mut self) -> Answer {
        self.panel.execute()
    }
    fn run_due(&mut self) -> Due {
        let mut due = self.panel.run_due();
        if FAULT == BEHIND && due.count == 2 {
            due.replies[2].mark = 3;
        }
        due
    }
    fn register(&self, k: u8) -> Value {
        self.panel.register(k)
    }
    fn requests(&self) -> usize {
        self.panel.requests()
    }
    fn committed(&self) -> usize {
        self.panel.committed()
    }
    fn commits(&self) -> u32 {
        self.panel.commits()
    }
    fn undos(&self) -> u32 {
        self.panel.undos()
    }
    fn executions(&self) -> u32 {
        self.panel.executions()
    }
    fn owed(&self) -> usize {
        let undos = self.panel.panel().to_be_rolled_back_reversed().len();
        self.panel.owed() - if FAULT == OWED { undos } else { 0 }
    }
    fn at_place(&self, place: usize) -> Placed {
        self.panel.at_place(place)
    }
    fn panels(&self) -> u8 {
        self.panel.panels()
    }
    fn own(&self) -> u8 {
        self.panel.own()
    }
    fn made(&self) -> u8 {
        self.panel.made()
    }
    fn request_status(&self, number: Number) -> Status {
        if FAULT == LAST && number.event == 64 {
            return Status { refusal: BAD_NUMBER, ..Status::default() };
        }
        self.panel.request_status(number)
    }
}

impl<const FAULT: u8> Watched for Faulty<FAULT> {
    fn fresh_on(start: &Start, panels: u8, own: u8) -> (u8, Self) {
        let (refusal, panel) = OwnPanel::fresh_on(start, panels, own);
        (refusal, Faulty { panel, refused: false, left: [start.words()[0]] })
    }
    fn copied(&self, _: bool) -> Self {
        if FAULT == COPIED {
            Faulty::default()
        } else {
            self.clone()
        }
    }
    fn moved(&mut self, _: bool) {}
    fn note(&mut self) {}
    fn has_changed(&self) -> bool {
        FAULT == CHANGED && self.refused
    }
    fn has_strayed(&self) -> bool {
        FAULT == STRAYED && self.refused
    }
    fn words(&self) -> &[u64] {
        if FAULT == LEFT || FAULT == LEFT_LATE && self.refused {
            &self.left
        } else {
            &[]
        }
    }
}

/// The least case that shows a fault, and its words.
fn least<const FAULT: u8>() -> (PanelCase, String) {
    let mut cases = (0..2000).map(|seed| draw::shift(seed, 60));
    let found = cases.find(|case| case.run::<Faulty<FAULT>>(&mut PanelTally::default()).is_some());
    let small = found.expect("a shift that shows it").shrunk::<Faulty<FAULT>>();
    let told = small.told::<Faulty<FAULT>>();
    assert!(told.starts_with(&format!("panel at step {}: ", small.steps.len())), "{told}");
    (small, told)
}

#[test]
fn planted_faults_are_found_and_shrunk() {
    let (small, told) = least::<OWED>();
    assert_eq!(small.steps.len(), 3, "{told}");
    assert!(told.contains("requests, committed, owed"), "{told}");
    let (small, told) = least::<TAKEN>();
    assert!(matches!(small.steps[..], [(0, Step::Receive(..))]), "{told}");
    assert!(told.contains("refused 19"), "{told}");
    let (small, told) = least::<BEHIND>();
    let steps: Vec<&Step> = small.steps.iter().map(|(_, step)| step).collect();
    let [Step::Call(Call::Make(..)), Step::Call(Call::Make(..)), Step::Call(Call::RunDue)] = steps[..] else {
        panic!("{told}");
    };
    assert!(least::<CHANGED>().1.contains("must change nothing"));
    assert!(least::<STRAYED>().1.contains("bytes beside the panel"));
    let (small, told) = least::<COPIED>();
    assert!(matches!(small.steps[..], [(0, Step::Copy(_))]), "{told}");
    let (small, told) = least::<LAST>();
    assert!(small.steps.is_empty() && told.contains("status of 0/64"), "{told}");
}

#[test]
fn bytes_that_fresh_leaves_are_found() {
    let (small, told) = least::<LEFT>();
    assert!(small.steps.is_empty() && told.contains("what was there before fresh"), "{told}");
    let (small, told) = least::<LEFT_LATE>();
    assert!(small.steps.len() == 1 && told.contains("what was there before fresh"), "{told}");
}

#[test]
fn a_panel_is_no_different_from_itself() {
    let mut tally = PanelTally::default();
    assert_eq!(panel_test::every_fresh::<OwnPanel>(&mut tally), Ok(()));
    assert_eq!((tally.fresh, tally.calls), (1 << 16, 2 << 16));
    assert_eq!(tally.refusals[1], (1 << 16) - 36);
    let tally = panel_test::compare::<OwnPanel>(3, 20_000, &mut |_| ()).unwrap();
    assert!(tally.calls >= 20_000 && tally.copied > 20 && tally.moved > 20);
    let both = [tally.by_struct, tally.received + tally.ended + tally.unread];
    assert!(both.iter().all(|half| *half > 3000), "{both:?}");
    assert!(tally.replies[1..].iter().all(|replies| *replies > 50), "{tally}");
    assert!(
        (1..REFUSALS).all(|number| [1, 5, 20].contains(&number) || tally.refusals[number] > 0),
        "{tally}"
    );
    let statuses = [tally.held, tally.settled, tally.awaited, tally.executed];
    assert!(statuses.iter().all(|count| (1000..tally.statuses).contains(count)), "{tally}");
    let tally = panel_test::soak::<OwnPanel>(3, 20_000, &mut |_| ()).unwrap();
    assert!(tally.fresh > 50 && tally.copied + tally.moved == 0);
}

/// Every answer of a small shift, worked out by hand from document 01.
pub fn answers_as_the_header_says(panel: &mut impl Component) {
    assert_eq!((panel.fresh(9, 0), panel.fresh(3, 3)), (1, 1));
    assert_eq!([panel.panels(), panel.own(), panel.made()], [1, 0, 0]);
    assert_eq!(panel.fresh(2, 1), 0);
    assert_eq!([panel.panels(), panel.own(), panel.made()], [2, 1, 0]);
    let bad = Asked::new(claim(0, 0), true);
    assert_eq!((panel.invoke(Invocation { asked: bad, clock: 5 }).refusal, panel.made()), (BAD_OPERATION, 0));
    let asked = Asked::new(claim(0, 7), true);
    let made = panel.invoke(Invocation { asked, clock: 5 }).request;
    assert_eq!((made.number, made.clock, made.asked), (Number { panel: 1, event: 1 }, 5, asked));
    assert_eq!(panel.made(), 1);
    let awaits = Status { place: 1, awaited: 1, ..Status::default() };
    assert_eq!(panel.request_status(made.number), awaits);
    let due = panel.run_due();
    assert_eq!((due.undos, due.executions, due.count), (0, 1, 1));
    let reply = Reply { response: 7, number: made.number, mark: 2, refusal: ACCEPTED };
    assert_eq!((due.replies[0], due.replies[1]), (reply, Reply::default()));
    assert_eq!(panel.request_status(made.number), Status { executed: 1, response: 7, ..awaits });
    assert_eq!(panel.deliver((&weak(0, 1, 1, set(0, 8))).into()), Answer::default());
    assert_eq!((panel.owed(), panel.requests(), panel.committed()), (3, 2, 0));
    assert_eq!(panel.request_status(made.number), Status { place: 2, ..awaits });
    let first = Number { panel: 0, event: 1 };
    assert_eq!(panel.request_status(first), Status { place: 1, ..Status::default() });
    let settled = [9, 9, 6, 0, 3, 0, 1, 1, 9];
    let receipt = Receipt { number: made.number, kind: 3, taken: 6, ..Receipt::default() };
    assert_eq!(panel.receive(&settled, 2), receipt);
    let again = Reply { refusal: SETTLED_ALREADY, ..Reply::default() };
    assert_eq!(panel.receive(&settled, 2), Receipt { reply: again, ..receipt });
    let cut = Reply { refusal: CUT_SHORT, ..Reply::default() };
    assert_eq!(panel.receive(&settled[..7], 2), Receipt { reply: cut, ..Receipt::default() });
    assert_eq!(panel.receive(&settled, 9), Receipt::default());
    assert_eq!(panel.request_status(made.number), Status { settled: 1, ..awaits });
    assert_eq!((panel.committed(), panel.commits(), panel.owed()), (1, 1, 3));
    let due = panel.run_due();
    assert_eq!((due.undos, due.executions, due.count), (1, 2, 1));
    assert_eq!(due.replies[0], Reply { mark: 3, ..reply });
    let stable = Status { place: 1, settled: 1, executed: 1, response: 7, ..Status::default() };
    assert_eq!(panel.request_status(made.number), stable);
    let behind = Status { place: 2, executed: 1, response: 7, ..Status::default() };
    assert_eq!(panel.request_status(first), behind);
    status_refusals(panel);
    assert_eq!(panel.register(0), Value { refusal: 0, value: 8 });
    assert_eq!(panel.register(64), Value { refusal: 3, value: 0 });
    assert_eq!(panel.at_place(2).request, (&weak(0, 1, 1, set(0, 8))).into());
    assert_eq!(panel.at_place(1).request.number, made.number);
    assert_eq!(panel.at_place(3), Placed { refusal: 9, ..Placed::default() });
    let waits = strong(0, 2, 9, claim(0, 1), &[(0, 1), (0, 9)]);
    assert_eq!(panel.deliver((&waits).into()).refusal, 0);
    let missing = Number { panel: 0, event: 9 };
    let answer = panel.commit(waits.number.into());
    assert_eq!(answer, Answer { refusal: WAITS, number: missing, ..Answer::default() });
}

/// A number outside the shop is bad, whether it could be held or not; the second
/// panel of a shop of two has made one request.
fn status_refusals(panel: &impl Component) {
    let refused = |refusal| Status { refusal, ..Status::default() };
    for (panel_no, event) in [(2, 1), (8, 1), (255, 1), (0, 0), (1, 0), (0, 65), (1, 255), (255, 255)] {
        assert_eq!(panel.request_status(Number { panel: panel_no, event }), refused(BAD_NUMBER));
    }
    for (panel_no, event) in [(0, 2), (0, 64), (1, 2), (1, 64)] {
        assert_eq!(panel.request_status(Number { panel: panel_no, event }), refused(NOT_HERE));
    }
}

/// Strong and weak messages, received and refused, by number and kind.
pub fn receipts_as_the_header_says(panel: &mut impl Component) {
    panel.fresh(2, 1);
    let requests =
        [weak(0, 1, 5, set(3, 4)), strong(0, 2, 6, claim(0, 1), &[(0, 7)]), weak(1, 3, 1, set(0, 1))];
    let mut bytes = Vec::new();
    requests.iter().for_each(|request| wire::append(&mut bytes, &Message::Request(*request)));
    wire::append(&mut bytes, &Message::Settlement(requests[1].number));
    let receipt = |refusal, missing, (panel, event), kind, taken| {
        let reply = Reply { refusal, number: missing, ..Reply::default() };
        Receipt { reply, number: Number { panel, event }, kind, taken }
    };
    let none = Number::default();
    assert_eq!(panel.receive(&bytes, 0), receipt(ACCEPTED, none, (0, 1), 1, 18));
    assert_eq!(panel.receive(&bytes, 0), receipt(HELD_ALREADY, none, (0, 1), 1, 18));
    assert_eq!(panel.receive(&bytes, 18), receipt(ACCEPTED, none, (0, 2), 2, 82));
    assert_eq!(panel.receive(&bytes, 100), receipt(OWN_ECHO, none, (1, 3), 1, 18));
    let missing = Number { panel: 0, event: 7 };
    assert_eq!(panel.receive(&bytes, 118), receipt(WAITS, missing, (0, 2), 3, 6));
    assert_eq!(panel.receive(&[6, 0, 3, 0, 255, 65], 0), receipt(BAD_NUMBER, none, (255, 65), 3, 6));
    assert_eq!(panel.receive(&[7, 0, 3, 0, 0, 2], 0), receipt(BAD_LENGTH, none, (0, 0), 0, 0));
    assert_eq!(panel.receive(&bytes, 124), Receipt::default());
}

#[test]
fn the_calls_answer_as_the_header_says() {
    answers_as_the_header_says(&mut OwnPanel::new());
    receipts_as_the_header_says(&mut OwnPanel::new());
}
