//! Own clocks that are put back: document 02's request (b).

use mizzencord_compare::byte_test::cases;
use mizzencord_compare::byte_test::difference::Outcome;
use mizzencord_compare::drawing::habits::Clocks;
use mizzencord_compare::drawing::inputs::printout_input;
use mizzencord_compare::drawing::messages::message;
use mizzencord_compare::drawing::random::Random;
use mizzencord_compare::drawing::shift::Shift;
use mizzencord_compare::interface::board::Handwritten;
use mizzencord_compare::replica::call::Call;
use mizzencord_compare::replica::calls::{self, ANSWER_SIZE};
use mizzencord_compare::replica::panel::{Answer, Panel};
use mizzencord_compare::replica::printout::printout;
use mizzencord_compare::replica::refusal::CLOCK_BACK;
use mizzencord_compare::replica::request::*;
use mizzencord_compare::replica::wire::{parse, write, Parsed};

use crate::build::*;

const TOP: u32 = 4_294_967_295;

/// Makes a request, which must be accepted, and gives the one to be spread.
fn make(panel: &mut Panel, operation: Operation, strong: bool, clock: u32) -> Request {
    let answer = panel.make(operation, strong, Clock(clock));
    assert_eq!(answer, Answer { request: answer.request, ..Answer::default() });
    answer.request
}

/// The clocks of requests made in turn with these.
fn clocks(panel: &mut Panel, asked: &[u32]) -> Vec<u32> {
    asked.iter().map(|clock| make(panel, read(0), false, *clock).clock.0).collect()
}

fn reply(panel: u8, event: u8, response: u32, mark: u8) -> Answer {
    Answer { number: Number::new(panel, event), response, mark, ..Answer::default() }
}

#[test]
fn a_lower_clock_takes_the_last_own_reading() {
    let mut panel = panel(1, 0);
    // 15 is above what was asked for last, and below what the last has.
    assert_eq!(clocks(&mut panel, &[20, 10, 15]), [20, 20, 20]);
    assert_eq!(order(&panel), [(0, 1), (0, 2), (0, 3)]);
    assert_eq!(panel.request_at(2).request, weak(0, 2, 20, read(0)));
    assert_eq!(clocks(&mut panel, &[20, 21, 20, 0, 22]), [20, 21, 21, 21, 22]);
    assert_eq!(panel.accepted_requests(), 8);
}

#[test]
fn place_and_context_are_those_of_the_raised_clock() {
    let mut panel = panel(3, 2);
    assert_eq!(make(&mut panel, set(0, 1), false, 20), weak(2, 1, 20, set(0, 1)));
    panel.hear(&weak(0, 1, 15, set(0, 2)));
    let third = make(&mut panel, claim(1, 4), true, 10);
    assert_eq!(third, strong(2, 2, 20, claim(1, 4), &[(0, 1), (2, 1)]));
    assert_eq!(order(&panel), [(0, 1), (2, 1), (2, 2)]);
    // What stands behind the raised clock is not in the context.
    panel.hear(&weak(0, 2, 21, set(0, 3)));
    panel.hear(&weak(1, 1, 20, set(0, 4)));
    let fourth = make(&mut panel, read(1), true, 0);
    assert_eq!(fourth, strong(2, 3, 20, read(1), &[(0, 1), (1, 1), (2, 1)]));
    assert_eq!(order(&panel), [(0, 1), (1, 1), (2, 1), (2, 2), (2, 3), (0, 2)]);
}

#[test]
fn a_heard_reading_raises_nothing() {
    let mut panel = panel(3, 2);
    panel.hear(&weak(0, 1, 50, set(0, 1)));
    assert_eq!(make(&mut panel, set(0, 2), false, 10), weak(2, 1, 10, set(0, 2)));
    assert_eq!(make(&mut panel, set(0, 3), true, 9), strong(2, 2, 10, set(0, 3), &[(2, 1)]));
    assert_eq!(order(&panel), [(2, 1), (2, 2), (0, 1)]);
}

#[test]
fn a_refused_request_raises_nothing() {
    let mut panel = panel(1, 0);
    let refused = Answer { refusal: 3, ..Answer::default() };
    assert_eq!(panel.make(set(64, 1), false, Clock(99)), refused);
    assert_eq!(make(&mut panel, set(0, 1), false, 50), weak(0, 1, 50, set(0, 1)));
    assert_eq!(panel.make(claim(0, 0), true, Clock(99)), refused);
    assert_eq!(panel.make(claim(0, 0), true, Clock(1)), refused);
    assert_eq!(clocks(&mut panel, &[60, 55]), [60, 60]);
}

#[test]
fn a_settled_request_is_still_the_last_own_one() {
    let mut panel = panel(2, 0);
    make(&mut panel, set(0, 1), true, 20);
    assert_eq!(panel.settle(Number::new(0, 1)).refusal, 0);
    assert_eq!(make(&mut panel, set(0, 2), false, 10), weak(0, 2, 20, set(0, 2)));
    panel.hear(&weak(1, 1, 15, set(0, 3)));
    panel.hear(&weak(1, 2, 20, set(0, 4)));
    let last = make(&mut panel, read(0), true, 3);
    assert_eq!(last, strong(0, 3, 20, read(0), &[(0, 1), (0, 2), (1, 1)]));
    assert_eq!(order(&panel), [(0, 1), (1, 1), (0, 2), (0, 3), (1, 2)]);
}

#[test]
fn a_full_shift_is_full_whatever_the_clock() {
    let mut panel = panel(1, 0);
    for event in 1..=64 {
        let made = make(&mut panel, add(0, 1), event % 2 == 0, 164 - event as u32);
        assert_eq!((made.number, made.clock), (Number::new(0, event), Clock(163)));
    }
    for clock in [0, 99, 163, 164, TOP] {
        assert_eq!(panel.make(add(0, 1), false, Clock(clock)), Answer { refusal: 6, ..Answer::default() });
    }
    assert_eq!(panel.make(add(64, 1), false, Clock(99)), Answer { refusal: 3, ..Answer::default() });
    assert_eq!(panel.accepted_requests(), 64);
    assert_eq!(panel.run_due(), 64);
    assert_eq!(panel.register(0).value, 64);
}

#[test]
fn the_lowest_and_the_highest_clock() {
    assert_eq!(clocks(&mut panel(1, 0), &[0, 0, TOP, 0, TOP - 1, TOP]), [0, 0, TOP, TOP, TOP, TOP]);
    assert_eq!(clocks(&mut panel(8, 7), &[TOP, TOP - 1, 0]), [TOP, TOP, TOP]);
    assert_eq!(clocks(&mut panel(8, 7), &[1, 0, 2]), [1, 1, 2]);
}

#[test]
fn own_requests_stand_by_event_after_falling_clocks() {
    let mut panel = panel(3, 1);
    panel.hear(&weak(0, 1, 30, read(0)));
    panel.hear(&weak(2, 1, 30, read(0)));
    panel.hear(&weak(0, 2, 31, read(0)));
    panel.hear(&weak(2, 2, 29, read(0)));
    assert_eq!(clocks(&mut panel, &[30, 29, 20, 3, 0]), [30; 5]);
    let own = [(1, 1), (1, 2), (1, 3), (1, 4), (1, 5)];
    assert_eq!(order(&panel), [&[(2, 2), (0, 1)][..], &own, &[(2, 1), (0, 2)]].concat());
}

#[test]
fn a_tie_of_a_raised_clock_goes_by_panel() {
    let mut panel = panel(3, 1);
    panel.hear(&weak(0, 1, 20, set(4, 1)));
    make(&mut panel, set(4, 2), false, 20);
    make(&mut panel, read(4), false, 5);
    panel.hear(&weak(2, 1, 20, set(4, 3)));
    panel.hear(&weak(0, 2, 20, set(4, 9)));
    assert_eq!(panel.carry_out(), reply(0, 1, 0, 0));
    assert_eq!(panel.carry_out(), reply(0, 2, 1, 0));
    assert_eq!(panel.carry_out(), reply(1, 1, 9, 1));
    assert_eq!(panel.carry_out(), reply(1, 2, 2, 1));
    assert_eq!(panel.carry_out(), reply(2, 1, 2, 0));
}

#[test]
fn a_raised_request_undoes_only_what_stands_behind_it() {
    let mut panel = panel(2, 0);
    make(&mut panel, set(0, 1), false, 20);
    panel.hear(&weak(1, 1, 30, add(0, 5)));
    panel.hear(&weak(1, 2, 15, set(0, 9)));
    assert_eq!(panel.run_due(), 3);
    make(&mut panel, add(0, 2), false, 10);
    assert_eq!(panel.owed(), 1 + 2);
    assert_eq!(panel.undo(), reply(1, 1, 0, 0));
    assert_eq!(panel.carry_out(), reply(0, 2, 3, 1));
    assert_eq!(panel.carry_out(), reply(1, 1, 8, 0));
}

#[test]
fn a_raised_strong_request_is_answered_as_any_other() {
    let mut panel = panel(2, 0);
    make(&mut panel, add(3, 5), false, 9);
    assert_eq!(panel.carry_out(), reply(0, 1, 5, 1));
    assert_eq!(make(&mut panel, add(3, 5), true, 4), strong(0, 2, 9, add(3, 5), &[(0, 1)]));
    assert_eq!(panel.carry_out(), reply(0, 2, 10, 2));
    assert_eq!(panel.settle(Number::new(0, 2)), Answer { response: 10, mark: 3, ..Answer::default() });
    // Settled before it is carried out, it is answered once.
    assert_eq!(make(&mut panel, add(3, 1), true, 0), strong(0, 3, 9, add(3, 1), &[(0, 1), (0, 2)]));
    assert_eq!(panel.settle(Number::new(0, 3)), Answer::default());
    assert_eq!(panel.carry_out(), reply(0, 3, 11, 3));
    assert_eq!(panel.awaiting(), 0);
}

fn refusal_of(panel: &mut Panel, call: &Call) -> u8 {
    match call {
        Call::Register(r) => panel.register(*r).refusal,
        Call::RequestAt(place) => panel.request_at(*place).refusal,
        _ => calls::carry(panel, call).refusal,
    }
}

#[test]
fn clock_back_comes_from_no_call() {
    for (panels, own) in (0..=9).flat_map(|panels| (0..=255).map(move |own| (panels, own))) {
        assert_ne!(Panel::fresh(panels, own).0, CLOCK_BACK);
    }
    let mut lower = 0;
    for seed in 0..400 {
        let mut shift = Shift::new(seed);
        let (panels, own) = shift.shop();
        let mut panel = Panel::fresh(panels, own).1;
        for _ in 0..250 {
            let call = shift.next_call();
            let last = readings(&panel, own).pop().unwrap_or_default();
            let refusal = refusal_of(&mut panel, &call);
            assert_ne!(refusal, CLOCK_BACK);
            if matches!(call, Call::Make(_, _, clock) if clock < last) {
                assert!([0, 3, 6].contains(&refusal));
                lower += (refusal == 0) as usize;
            }
        }
        assert!(readings(&panel, own).is_sorted());
    }
    assert!(lower > 1000, "{lower}");
}

#[test]
fn clock_back_is_in_no_answer_to_a_list_of_calls() {
    let mut answers = 0;
    for seed in 0..300 {
        let outcome = Outcome::of(&Handwritten, &cases::list_of_calls(seed, 100));
        for answer in outcome.out.chunks_exact(ANSWER_SIZE).take(outcome.result) {
            assert_ne!(answer[0], CLOCK_BACK);
            answers += 1;
        }
    }
    assert!(answers > 20_000, "{answers}");
}

#[test]
fn clock_back_comes_neither_from_the_reader_nor_from_the_writer() {
    let mut random = Random::new(5);
    let mut refused = 0;
    for seed in 0..1000 {
        for case in cases::readings(seed) {
            let parsed = parse(&case.bytes, case.at);
            assert_ne!(parsed, Parsed::Refused(CLOCK_BACK));
            assert_ne!(Outcome::of(&Handwritten, &case).result / 256, CLOCK_BACK as usize);
            refused += matches!(parsed, Parsed::Refused(_)) as usize;
        }
        let writing = Outcome::of(&Handwritten, &cases::writing(seed));
        assert_ne!(writing.result / 256, CLOCK_BACK as usize);
        let (refusal, _) = write(&message(&mut random), &mut [0; 90][..random.below(90)]);
        assert_ne!(refusal, CLOCK_BACK);
        refused += (refusal != 0) as usize;
    }
    assert!(refused > 500, "{refused}");
}

#[test]
fn clock_back_is_in_no_line_of_a_printout() {
    let mut lines = 0;
    for seed in 0..250 {
        for line in String::from_utf8(printout(&printout_input(seed))).unwrap().lines() {
            let words: Vec<&str> = line.split(' ').collect();
            if words.len() == 6 {
                assert_ne!(words[4], "5");
                lines += 1;
            }
        }
    }
    assert!(lines > 5000, "{lines}");
}

/// What the makes behind an own request were like in some shifts.
#[derive(Debug, Default)]
struct Makes {
    all: usize,
    equal: usize,
    lower: usize,
    one_less: usize,
    /// Below half of the last reading.
    far_lower: usize,
    /// Raised to the very reading of a request heard.
    onto_heard: usize,
    /// Raised past the reading of an unsettled request heard.
    past_heard: usize,
}

impl Makes {
    fn count(&mut self, panel: &Panel, asked: Clock, last: Clock) {
        let of_heard = |slots: &[u16], is: &dyn Fn(Clock) -> bool| {
            let held = slots.iter().map(|slot| panel.request(*slot as usize));
            held.into_iter().any(|request| request.number.panel.0 != panel.own() && is(request.clock))
        };
        let lower = asked < last;
        let both = [panel.committed(), panel.tentative()].concat();
        self.all += 1;
        self.equal += (asked == last) as usize;
        self.lower += lower as usize;
        self.one_less += (lower && last.0 - asked.0 == 1) as usize;
        self.far_lower += (asked.0 < last.0 / 2) as usize;
        self.onto_heard += (lower && of_heard(&both, &|clock| clock == last)) as usize;
        self.past_heard +=
            (lower && of_heard(panel.tentative(), &|clock| asked < clock && clock < last)) as usize;
    }
}

/// The makes of many shifts with clocks of this kind, while there is room.
fn makes_of(clocks: Clocks) -> Makes {
    let mut makes = Makes::default();
    for mut shift in (0..600).map(Shift::new).filter(|shift| shift.clocks() == clocks) {
        let (panels, own) = shift.shop();
        let mut panel = Panel::fresh(panels, own).1;
        for _ in 0..200 {
            let call = shift.next_call();
            let readings = readings(&panel, own);
            if let (Call::Make(_, _, asked), Some(last)) = (call, readings.last()) {
                if readings.len() < EVENTS {
                    makes.count(&panel, asked, *last);
                }
            }
            refusal_of(&mut panel, &call);
        }
    }
    makes
}

#[test]
fn random_shifts_put_clocks_back_often_and_in_every_way() {
    for clocks in [Clocks::Tied, Clocks::Rising, Clocks::Anywhere, Clocks::Top] {
        let makes = makes_of(clocks);
        println!("{clocks:?} {makes:?}");
        assert!(makes.lower * 5 > makes.all && makes.lower * 5 < makes.all * 4, "{clocks:?} {makes:?}");
        let ways = [makes.equal, makes.one_less, makes.onto_heard, makes.past_heard];
        assert!(ways.iter().all(|count| *count > 20), "{clocks:?} {makes:?}");
        assert!(makes.far_lower > 20, "{clocks:?} {makes:?}");
    }
}
