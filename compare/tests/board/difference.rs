//! The comparison itself: a planted fault is found and shrunk, and cases and
//! calls come back from their bytes.

use mizzencord_compare::byte_test::cases;
use mizzencord_compare::byte_test::difference::{differ, Case, Function};
use mizzencord_compare::byte_test::fields;
use mizzencord_compare::drawing::messages::message;
use mizzencord_compare::drawing::random::Random;
use mizzencord_compare::interface::board::{Board, Handwritten};
use mizzencord_compare::interface::header::{self, Message, Ran, Reading, Written};
use mizzencord_compare::replica::call::Call;
use mizzencord_compare::replica::calls::{self, ANSWER_SIZE};
use mizzencord_compare::replica::panel::{MARK_STABLE, MARK_TENTATIVE};
use mizzencord_compare::replica::refusal::{BAD_CONTEXT, BAD_SHOP, CUT_SHORT, NO_ROOM};
use mizzencord_compare::replica::request::*;

use crate::naive;

/// Shows a stable reply as a tentative one, and writes a byte too many.
struct Faulty;

impl Board for Faulty {
    fn print(&self, input: &[u8], out: &mut [u8]) -> usize {
        let length = Handwritten.print(input, out);
        if let Some(behind) = out.get_mut(length) {
            *behind = 0;
        }
        length
    }

    fn run(&self, calls: &[u8], out: &mut [u8]) -> Ran {
        let ran = Handwritten.run(calls, out);
        for answer in out.chunks_exact_mut(ANSWER_SIZE).take(ran.ran as usize) {
            if answer[1] == MARK_STABLE {
                answer[1] = MARK_TENTATIVE;
            }
        }
        ran
    }

    fn read(&self, bytes: &[u8], at: usize) -> Reading {
        Handwritten.read(bytes, at)
    }

    fn write(&self, message: &Message, out: &mut [u8]) -> Written {
        Handwritten.write(message, out)
    }
}

#[test]
fn a_planted_fault_is_found_and_shrunk() {
    let mut lists = (0..200).map(|seed| cases::list_of_calls(seed, 100));
    let found = lists.find(|case| differ(&Handwritten, &Faulty, case)).expect("a list with a stable reply");
    let small = found.shrunk(&Handwritten, &Faulty);
    assert!(differ(&Handwritten, &Faulty, &small));
    let calls: Vec<Call> = calls::each(&small.bytes).map(calls::decode).collect();
    assert_eq!(calls.len(), 3, "{calls:?}");
    assert!(matches!(calls[0], Call::Make(_, true, _)));
    assert!(calls[1..].contains(&Call::CarryOut));
    assert!(calls[1..].iter().any(|call| matches!(call, Call::Settle(_))));
    let shown = small.show(["one", "other"], [&Handwritten, &Faulty]);
    assert!(shown.contains("mark: 3") && shown.contains("mark: 2"), "{shown}");
}

#[test]
fn a_byte_too_many_is_found() {
    let case = cases::printed(1);
    assert!(differ(&Handwritten, &Faulty, &case));
    assert!(!differ(&Handwritten, &Handwritten, &case));
}

#[test]
fn a_board_is_no_different_from_itself() {
    for seed in 0..100 {
        let mut all = vec![cases::list_of_calls(seed, 60), cases::printed(seed), cases::writing(seed)];
        all.extend(cases::readings(seed));
        assert!(all.iter().all(|case| !differ(&Handwritten, &Handwritten, case)));
    }
}

#[test]
fn stored_cases_come_back() {
    for seed in 0..20 {
        let mut all = vec![cases::list_of_calls(seed, 5), cases::printed(seed), cases::writing(seed)];
        all.extend(cases::readings(seed));
        assert!(all.iter().all(|case| Case::stored(&case.store()).as_ref() == Some(case)));
    }
    assert_eq!(Case::stored(b"read room 4 at x\n"), None);
    assert_eq!(Case::stored(b"print"), None);
    let case = Case { function: Function::Write, bytes: vec![10, 0], at: 0, room: 7 };
    assert_eq!(case.store(), b"write room 7 at 0\n\n\0");
}

/// docs/CALLS.md, byte by byte.
#[test]
fn calls_and_answers_are_laid_out() {
    let mut bytes = vec![3, 2];
    assert!(calls::append(&mut bytes, &Call::Make(Operation::new(SET, 4, 0, 0x0102), false, Clock(9))));
    assert!(calls::append(&mut bytes, &Call::CarryOut));
    assert_eq!(bytes.len(), 2 + 2 * 83);
    assert_eq!(bytes[2..22], [1, 18, 0, 1, 0, 0, 0, 9, 0, 0, 0, 2, 4, 0, 0, 2, 1, 0, 0, 0]);
    assert_eq!(bytes[85], 3);
    let mut out = [7; 2 * 90 + 1];
    assert_eq!(Handwritten.run(&bytes, &mut out[..179]), Ran { refusal: NO_ROOM, ran: 0 });
    assert_eq!(Handwritten.run(&bytes, &mut out), Ran { refusal: 0, ran: 2 });
    assert_eq!(out[..8], [0; 8]);
    assert_eq!(out[8..26], [18, 0, 1, 0, 2, 1, 9, 0, 0, 0, 2, 4, 0, 0, 2, 1, 0, 0]);
    assert!(out[26..90].iter().all(|byte| *byte == 0));
    assert_eq!(out[90..98], [0, 1, 2, 1, 0, 0, 0, 0]);
    assert_eq!(out[98..116], [18, 0, 1, 0, 0, 0, 0, 0, 0, 0, 0, 0, 0, 0, 0, 0, 0, 0]);
    assert_eq!(out[180], 7);
}

/// No room is told before a bad shop, whose calls are run on a shop of one.
#[test]
fn a_list_tells_its_refusal() {
    let mut bytes = vec![9, 0];
    assert!(calls::append(&mut bytes, &Call::Make(Operation::new(READ, 0, 0, 0), false, Clock(9))));
    let mut out = [7; ANSWER_SIZE];
    assert_eq!(Handwritten.run(&bytes, &mut out[1..]), Ran { refusal: NO_ROOM, ran: 0 });
    assert_eq!(out, [7; ANSWER_SIZE]);
    assert_eq!(Handwritten.run(&bytes, &mut out), Ran { refusal: BAD_SHOP, ran: 1 });
    assert_eq!(out[8..14], [18, 0, 1, 0, 0, 1]);
    assert_eq!(Handwritten.run(&bytes[..2], &mut []), Ran { refusal: BAD_SHOP, ran: 0 });
    assert_eq!(Handwritten.run(&[], &mut []), Ran { refusal: BAD_SHOP, ran: 0 });
    assert_eq!(Handwritten.run(&[1], &mut []), Ran { refusal: 0, ran: 0 });
}

/// The lines of a list of calls, worked out by hand.
#[test]
fn answers_are_printed_in_lines() {
    let mut bytes = vec![3, 2];
    let made = Call::Make(Operation::new(SET, 4, 0, 0x0102), false, Clock(9));
    let raised = Call::Make(Operation::new(CLAIM, 0, 0, 7), true, Clock(8));
    let bad = Call::Make(Operation::new(CLAIM, 0, 0, 0), true, Clock(8));
    let settled = Call::Settle(Number::new(2, 2));
    for call in [made, raised, bad, Call::CarryOut, Call::CarryOut, settled, Call::Undo, Call::RunDue] {
        assert!(calls::append(&mut bytes, &call));
    }
    let context = format!("{}1{}", "0 ".repeat(16), " 0".repeat(47));
    let lines = format!(
        "0 0 0 0 0 18 0 1 0 2 1 9 0 0 0 2 4 0 0 2 1 0 0\n\
         0 0 0 0 0 82 0 2 0 2 2 9 0 0 0 4 0 0 0 7 0 0 0 {context}\n\
         3 0 0 0 0\n0 1 2 1 0\n0 2 2 2 7\n0 3 0 0 7\n13 0 0 0 0\n0 0 0 0 0\n"
    );
    assert_eq!(String::from_utf8(calls::printed(&bytes)).unwrap(), lines);
    assert_eq!(naive::answers(&bytes), lines);
    for without_calls in [&[][..], &[3], &[9], &[3, 2], &bytes[..84]] {
        assert_eq!(calls::printed(without_calls), []);
        assert_eq!(naive::answers(without_calls), "");
    }
}

#[test]
fn a_raised_clock_shows_in_the_answer() {
    let mut bytes = vec![1, 0];
    for (amount, clock) in [(1, 20), (1, 10), (0, 10), (1, 20), (1, 21)] {
        let operation = Operation::new(CLAIM, 0, 0, amount);
        assert!(calls::append(&mut bytes, &Call::Make(operation, true, Clock(clock))));
    }
    assert!(calls::append(&mut bytes, &Call::CarryOut));
    let mut out = [0; 6 * ANSWER_SIZE];
    assert_eq!(Handwritten.run(&bytes, &mut out), Ran { refusal: 0, ran: 6 });
    let answers = calls::each(&bytes).zip(out.chunks_exact(ANSWER_SIZE));
    let raised: Vec<bool> = answers.map(|(call, answer)| calls::is_raised(call, answer)).collect();
    assert_eq!(raised, [false, true, false, false, false, false]);
}

#[test]
fn all_due_steps_are_answered_by_their_count() {
    let mut bytes = vec![1, 0];
    let make = Call::Make(Operation::new(ADD, 0, 0, 5), true, Clock(1));
    for call in [make, make, Call::RunDue, Call::RunDue, Call::Settle(Number::new(0, 1))] {
        assert!(calls::append(&mut bytes, &call));
    }
    let mut out = [7; 5 * 90];
    assert_eq!(Handwritten.run(&bytes, &mut out), Ran { refusal: 0, ran: 5 });
    assert_eq!(bytes[2 + 2 * 83], 4);
    assert_eq!(out[180..188], [0, 0, 0, 0, 2, 0, 0, 0]);
    assert_eq!(out[188..192], [18, 0, 1, 0]);
    assert!(out[192..270].iter().all(|byte| *byte == 0));
    assert_eq!(out[270..278], [0; 8]);
    assert_eq!(out[360..368], [0, 3, 0, 0, 5, 0, 0, 0]);
}

#[test]
fn messages_are_read_and_written_as_structs() {
    let settlement = [6, 0, 3, 0, 5, 64, 9];
    let number = header::Number { panel: 5, event: 64 };
    let bare = header::Request { number, ..header::Request::default() };
    let read = Reading { refusal: 0, taken: 6, message: Message { settles: 1, request: bare } };
    assert_eq!(Handwritten.read(&settlement, 0), read);
    assert_eq!(Handwritten.read(&settlement, 7), Reading::default());
    assert_eq!(Handwritten.read(&settlement, 8), Reading::default());
    let cut = Reading { refusal: CUT_SHORT, ..Reading::default() };
    assert_eq!((Handwritten.read(&settlement, 4), Handwritten.read(&settlement[..5], 0)), (cut, cut));
    // Of a settlement only the number is written, whatever else it has.
    let full = header::Request { context: [7; 8], clock: 9, ..bare };
    let mut part = [9; 7];
    let written = Handwritten.write(&Message { settles: 1, request: full }, &mut part);
    assert_eq!((written, part), (Written { refusal: 0, bytes: 6 }, settlement));
    let refused = |refusal| Written { refusal, bytes: 0 };
    let weak = Message { settles: 0, request: full };
    assert_eq!(Handwritten.write(&weak, &mut part[..0]), refused(BAD_CONTEXT));
    let asked = header::Asked { strong: 1, ..full.asked };
    let strong = Message { settles: 0, request: header::Request { asked, ..full } };
    assert_eq!(Handwritten.write(&strong, &mut part), refused(NO_ROOM));
    assert_eq!(part, settlement);
}

#[test]
fn the_fields_of_a_case_come_back() {
    for seed in 0..200 {
        let message = Message::from(&message(&mut Random::new(seed)));
        assert_eq!(fields::message(&fields::of_message(&message)), message);
    }
    assert_eq!(fields::message(&[]), Message::default());
    assert_eq!(fields::message(&[0, 7, 1, 0, 3]).settles, 1);
}
