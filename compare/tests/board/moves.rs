//! Moves of what there is: document 02's request (i).

use mizzencord_compare::counting::moves::MoveLimits;
use mizzencord_compare::counting::Counting;
use mizzencord_compare::drawing::random::Random;
use mizzencord_compare::drawing::shift::Shift;
use mizzencord_compare::replica::call::Call;
use mizzencord_compare::replica::calls;
use mizzencord_compare::replica::panel::{Answer, Panel};
use mizzencord_compare::replica::request::*;

use crate::build::*;
use crate::naive;

const TOP: u32 = 4_294_967_295;

/// The amount asked and what r and q hold before; what is moved and what they
/// hold afterwards.
pub const MOVES: [([u32; 3], [u32; 3]); 26] = [
    // Document 01's three cases.
    ([5, 5, 0], [5, 0, 5]),
    ([6, 5, 0], [5, 0, 5]),
    ([1, 5, TOP], [0, 5, TOP]),
    // All that is asked.
    ([3, 5, 4], [3, 2, 7]),
    ([5, 9, TOP - 5], [5, 4, TOP]),
    ([4, 9, TOP - 5], [4, 5, TOP - 1]),
    ([9, 9, TOP - 9], [9, 0, TOP]),
    ([9, 9, TOP - 10], [9, 0, TOP - 1]),
    ([TOP - 1, TOP, 0], [TOP - 1, 1, TOP - 1]),
    ([TOP, TOP, 0], [TOP, 0, TOP]),
    // All that r holds.
    ([TOP, 1, 0], [1, 0, 1]),
    ([10, 9, TOP - 10], [9, 0, TOP - 1]),
    ([10, 9, TOP - 9], [9, 0, TOP]),
    ([3, 0, 0], [0, 0, 0]),
    ([3, 0, TOP], [0, 0, TOP]),
    // All that q has room for.
    ([9, 9, TOP - 5], [5, 4, TOP]),
    ([9, 9, TOP - 1], [1, 8, TOP]),
    ([6, 9, TOP - 5], [5, 4, TOP]),
    ([9, 9, TOP - 8], [8, 1, TOP]),
    ([TOP, TOP, 1], [TOP - 1, 1, TOP]),
    ([TOP, TOP, TOP], [0, TOP, TOP]),
    ([TOP, TOP, TOP - 1], [1, TOP - 1, TOP]),
    // Nothing is asked.
    ([0, 5, 6], [0, 5, 6]),
    ([0, 0, 6], [0, 0, 6]),
    ([0, 5, TOP], [0, 5, TOP]),
    ([0, 0, 0], [0, 0, 0]),
];

/// The registers that r and q are taken to be.
const PLACES: [(u8, u8); 4] = [(1, 2), (2, 1), (0, 63), (63, 0)];

fn sum(registers: &[u32; 64]) -> u64 {
    registers.iter().map(|value| *value as u64).sum()
}

fn reply(panel: u8, event: u8, response: u32, mark: u8) -> Answer {
    Answer { number: Number::new(panel, event), response, mark, ..Answer::default() }
}

#[test]
fn the_least_of_the_three_is_moved() {
    for ([asked, held, filled], [moved, left, reached]) in MOVES {
        for (r, q) in PLACES {
            // All other registers hold something that must stay.
            let mut before = std::array::from_fn(|place| 1_000 + place as u32);
            (before[r as usize], before[q as usize]) = (held, filled);
            let mut after = before;
            (after[r as usize], after[q as usize]) = (left, reached);
            let mut registers = before;
            assert_eq!(shift(r, q, asked).execute(&mut registers), moved, "{asked} {held} {filled}");
            assert_eq!(registers, after, "{asked} {held} {filled}");
            let mut board = before.map(u64::from);
            assert_eq!(naive::run(&shift(r, q, asked), &mut board), moved);
            assert_eq!(board, after.map(u64::from));
            assert_eq!(sum(&before), sum(&after));
        }
    }
}

#[test]
fn a_move_that_is_made_or_heard_responds_with_what_it_moved() {
    for ([asked, held, filled], [moved, left, reached]) in MOVES {
        for (r, q) in PLACES {
            let mut panel = panel(2, 0);
            panel.hear(&weak(1, 1, 1, set(r, held)));
            panel.hear(&weak(1, 2, 1, set(q, filled)));
            panel.run_due();
            panel.make(shift(r, q, asked), false, Clock(2));
            assert_eq!(panel.carry_out(), reply(0, 1, moved, 1));
            assert_eq!((panel.register(r).value, panel.register(q).value), (left, reached));
            panel.hear(&weak(1, 3, 3, set(r, held)));
            panel.hear(&weak(1, 4, 3, set(q, filled)));
            panel.run_due();
            panel.hear(&weak(1, 5, 4, shift(r, q, asked)));
            assert_eq!(panel.carry_out(), reply(1, 5, moved, 0));
            assert_eq!((panel.register(r).value, panel.register(q).value), (left, reached));
        }
    }
}

#[test]
fn undoing_a_move_puts_both_registers_back() {
    for ([asked, held, filled], [moved, left, reached]) in MOVES {
        for (r, q) in PLACES {
            let mut panel = panel(2, 0);
            panel.hear(&weak(1, 1, 1, set(r, held)));
            panel.hear(&weak(1, 2, 2, set(q, filled)));
            panel.hear(&weak(1, 3, 9, shift(r, q, asked)));
            assert_eq!(panel.run_due(), 3);
            let values = |panel: &Panel| (panel.register(r).value, panel.register(q).value);
            assert_eq!(values(&panel), (left, reached));
            panel.hear(&weak(1, 4, 5, read(r)));
            assert_eq!(panel.undo(), reply(1, 3, 0, 0));
            assert_eq!(values(&panel), (held, filled));
            assert_eq!(panel.carry_out(), reply(1, 4, held, 0));
            assert_eq!(panel.carry_out(), reply(1, 3, moved, 0));
            assert_eq!(values(&panel), (left, reached));
        }
    }
}

#[test]
fn a_move_from_a_register_into_itself_is_bad() {
    let refused = Answer { refusal: 3, ..Answer::default() };
    for amount in [0, 1, TOP] {
        for r in [0, 9, 63] {
            let mut panel = panel(2, 0);
            panel.make(set(r, 5), false, Clock(1));
            panel.run_due();
            assert_eq!(panel.make(shift(r, r, amount), false, Clock(2)), refused);
            assert_eq!(panel.make(shift(r, r, amount), true, Clock(2)), refused);
            assert_eq!(panel.hear(&weak(1, 1, 2, shift(r, r, amount))), refused);
            assert_eq!(panel.hear(&strong(1, 1, 2, shift(r, r, amount), &[])), refused);
            assert_eq!((panel.owed(), panel.register(r).value), (0, 5));
        }
    }
}

#[test]
fn the_other_codes_around_moves() {
    let mut registers = [0; 64];
    for (operation, response) in [
        (set(7, 5), 0),
        (shift(7, 8, 3), 3),
        (read(7), 2),
        (read(8), 3),
        (shift(7, 8, 9), 2),
        // The move has emptied 7 and filled 8.
        (claim(7, 6), 6),
        (claim(8, 6), 5),
        (add(7, TOP), 5),
        (shift(7, 9, TOP), 5),
        (add(7, TOP), TOP),
        (shift(7, 9, TOP), TOP - 5),
        // The move has filled 9 to the top and left 5 in 7.
        (claim(9, 1), TOP),
        (add(9, 2), 1),
        (set(7, 1), 5),
    ] {
        assert_eq!(operation.execute(&mut registers), response, "{operation:?}");
    }
    assert_eq!((registers[7], registers[8], registers[9], sum(&registers)), (1, 5, 1, 7));
}

/// A panel whose own strong move of 5 out of 7 has its tentative reply, behind
/// it another panel's move of 4 out of the same register.
fn panel_with_own_move() -> (Panel, Number) {
    let mut panel = panel(2, 0);
    panel.hear(&weak(1, 1, 1, set(1, 7)));
    let own = panel.make(shift(1, 2, 5), true, Clock(9)).request;
    assert_eq!(own, strong(0, 1, 9, shift(1, 2, 5), &[(1, 1)]));
    panel.carry_out();
    assert_eq!(panel.carry_out(), reply(0, 1, 5, 2));
    panel.hear(&strong(1, 2, 12, shift(1, 3, 4), &[(1, 1)]));
    assert_eq!(panel.carry_out(), reply(1, 2, 2, 0));
    (panel, own.number)
}

#[test]
fn a_move_responds_by_its_place_in_the_order() {
    let (mut panel, own) = panel_with_own_move();
    // The other move is settled first and leaves 3.
    assert_eq!(panel.settle(Number::new(1, 2)), Answer::default());
    assert_eq!(panel.undo(), reply(1, 2, 0, 0));
    assert_eq!(panel.undo(), reply(0, 1, 0, 0));
    assert_eq!(panel.carry_out(), reply(1, 2, 4, 0));
    assert_eq!(panel.carry_out(), reply(0, 1, 3, 2));
    assert_eq!(panel.settle(own), Answer { response: 3, mark: 3, ..Answer::default() });
    assert_eq!(panel.registers()[1..4], [0, 3, 4]);
}

#[test]
fn a_move_settled_elsewhere_has_its_first_stable_reply_when_it_is_carried_out() {
    let (mut panel, own) = panel_with_own_move();
    panel.settle(Number::new(1, 2));
    assert_eq!(panel.settle(own), Answer::default());
    panel.undo();
    panel.undo();
    panel.carry_out();
    assert_eq!(panel.carry_out(), reply(0, 1, 3, 3));
    assert_eq!(panel.awaiting(), 0);
}

/// A value that is 0, at the top or near one of them as often as any other.
fn value(random: &mut Random) -> u32 {
    match random.below(6) {
        0 => 0,
        1 => TOP,
        2 => random.below(9) as u32,
        3 => TOP - random.below(9) as u32,
        _ => random.number32(),
    }
}

/// A good move, of which the amount is often near what r holds or near the room
/// in q.
fn good_move(random: &mut Random, registers: &[u32; 64]) -> Operation {
    let r = random.below(64);
    let q = (r + 1 + random.below(63)) % 64;
    let any = value(random);
    let near = random.one_of(&[registers[r], TOP - registers[q], any]);
    let amount = near.saturating_sub(1).saturating_add(random.below(3) as u32);
    shift(r as u8, q as u8, amount)
}

#[test]
fn moves_alone_keep_the_sum() {
    let mut random = Random::new(64);
    for _ in 0..300 {
        let mut registers: [u32; 64] = std::array::from_fn(|_| value(&mut random));
        let all = sum(&registers);
        for _ in 0..200 {
            let operation = good_move(&mut random, &registers);
            let (before, response) = (registers, operation.execute(&mut registers));
            assert_eq!(sum(&registers), all);
            let [r, q] = [operation.r as usize, operation.q as usize];
            assert_eq!((before[r] - registers[r], registers[q] - before[q]), (response, response));
        }
    }
}

#[test]
fn a_set_among_moves_changes_the_sum() {
    let mut random = Random::new(65);
    let mut registers: [u32; 64] = std::array::from_fn(|_| value(&mut random));
    for amount in 0..50 {
        good_move(&mut random, &registers).execute(&mut registers);
        let (all, former) = (sum(&registers), registers[9] as u64);
        set(9, 100 + amount).execute(&mut registers);
        assert_eq!(sum(&registers) + former, all + 100 + amount as u64);
        assert_ne!(sum(&registers), all);
    }
}

/// A panel of eight with all registers set by panel 0 at clock 0. All other
/// requests stand behind these, since every context here names them.
fn panel_with_values(random: &mut Random) -> Panel {
    let mut panel = panel(8, 7);
    for register in 0..64 {
        panel.hear(&weak(0, register + 1, 0, set(register, value(random))));
    }
    assert_eq!(panel.run_due(), 64);
    panel
}

/// Hears or makes a move at a clock, and settles some of the strong ones heard.
fn next_call(random: &mut Random, panel: &mut Panel, event: u8, clock: u32) {
    let operation = good_move(random, panel.registers());
    let maker = 1 + random.below(7) as u8;
    let is_strong = random.percent(30);
    if maker == 7 {
        assert_eq!(panel.make(operation, is_strong, Clock(clock)).refusal, 0);
        return;
    }
    let context = if is_strong { *panel.causal_context() } else { NumberSet::EMPTY };
    let request = weak(maker, event, clock, operation);
    assert_eq!(panel.hear(&Request { strong: is_strong, context, ..request }).refusal, 0);
    if is_strong && random.percent(50) {
        assert_eq!(panel.settle(request.number).refusal, 0);
    }
}

#[test]
fn moves_alone_keep_the_sum_on_a_panel_that_undoes_and_redoes_them() {
    let (mut random, mut undos, mut moved) = (Random::new(66), 0, 0);
    for _ in 0..60 {
        let mut panel = panel_with_values(&mut random);
        let all = sum(panel.registers());
        for event in 1..=60 {
            let clock = 100 - event as u32 + random.below(9) as u32;
            next_call(&mut random, &mut panel, event, clock);
            for _ in 0..random.below(1 + panel.owed()) {
                undos += (panel.undo().refusal == 0) as usize;
                moved += (panel.carry_out().response > 0) as usize;
                assert_eq!(sum(panel.registers()), all);
            }
        }
        panel.run_due();
        assert_eq!(sum(panel.registers()), all);
        assert_eq!(panel.accepted_requests(), 64 + 60);
    }
    assert!(undos > 5_000 && moved > 5_000, "{undos} {moved}");
}

#[test]
fn moves_are_counted_by_the_limit_that_decides() {
    let counted = |asked: u32, held: u32, filled: u32| {
        let mut panel = panel(2, 0);
        let mut limits = MoveLimits::default();
        for operation in [set(1, held), set(2, filled), shift(1, 2, asked)] {
            limits.carry(&mut panel, &Call::Make(operation, false, Clock(1)));
        }
        limits.carry(&mut panel, &Call::RunDue);
        (limits.asked, limits.held, limits.room, limits.at_the_top)
    };
    assert_eq!(counted(5, 5, 0), (1, 0, 0, 0));
    assert_eq!(counted(6, 5, 0), (0, 1, 0, 0));
    assert_eq!(counted(6, 5, TOP - 5), (0, 1, 0, 1));
    assert_eq!(counted(5, 5, TOP - 5), (1, 0, 0, 1));
    assert_eq!(counted(5, 5, TOP - 4), (0, 0, 1, 1));
    assert_eq!(counted(1, 5, TOP), (0, 0, 1, 1));
    assert_eq!(counted(0, 0, TOP), (1, 0, 0, 1));
    // Undone and carried out again, a move counts twice, by its place.
    let mut panel = panel(2, 0);
    let mut limits = MoveLimits::default();
    for call in [
        Call::Make(shift(1, 2, 5), false, Clock(5)),
        Call::CarryOut,
        Call::CarryOut,
        Call::Hear(weak(1, 1, 1, set(1, 5))),
        Call::Undo,
        Call::CarryOut,
        Call::CarryOut,
    ] {
        limits.carry(&mut panel, &call);
    }
    assert_eq!((limits.asked, limits.held, limits.room, limits.at_the_top), (1, 1, 0, 0));
}

/// What the moves that random shifts carried out one by one were like.
#[derive(Debug, Default)]
struct Met {
    all: usize,
    /// Of all that r held, one more, and more than ten more.
    drained: usize,
    one_more_than_held: usize,
    far_more_than_held: usize,
    /// Just to the top, one short of it, and one more than the room.
    filled: usize,
    one_short: usize,
    one_more_than_room: usize,
    nothing: usize,
    into_full: usize,
    from_empty: usize,
}

impl Met {
    fn count(&mut self, asked: u64, held: u64, room: u64) {
        let some = asked > 0 && held > 0 && room > 0;
        self.all += 1;
        self.drained += (some && asked == held && held <= room) as usize;
        self.one_more_than_held += (some && asked == held + 1 && held <= room) as usize;
        self.far_more_than_held += (some && asked > held + 10 && held <= room) as usize;
        self.filled += (some && asked == room && room <= held) as usize;
        self.one_short += (some && asked + 1 == room && room <= held) as usize;
        self.one_more_than_room += (some && asked == room + 1 && room < held) as usize;
        self.nothing += (asked == 0) as usize;
        self.into_full += (asked > 0 && held > 0 && room == 0) as usize;
        self.from_empty += (asked > 0 && held == 0 && room > 0) as usize;
    }
}

/// Counts the moves that a shift carries out one by one.
fn count_moves(met: &mut Met, mut shift: Shift) {
    let (panels, own) = shift.shop();
    let mut panel = panel(panels, own);
    for _ in 0..200 {
        let call = shift.next_call();
        let before = panel.registers().map(u64::from);
        if matches!(call, Call::Register(_) | Call::RequestAt(_)) {
            continue;
        }
        let answer = calls::carry(&mut panel, &call);
        if call == Call::CarryOut && answer.refusal == 0 {
            let Operation { code, r, q, amount } = panel.request(answer.number.slot()).operation;
            if code == 5 {
                met.count(amount as u64, before[r as usize], TOP as u64 - before[q as usize]);
            }
        }
    }
}

#[test]
fn random_shifts_meet_every_limit_of_a_move() {
    let mut met = Met::default();
    (0..600).for_each(|seed| count_moves(&mut met, Shift::new(seed)));
    let held = [met.drained, met.one_more_than_held, met.far_more_than_held];
    let room = [met.filled, met.one_short, met.one_more_than_room];
    let none = [met.nothing, met.into_full, met.from_empty];
    assert!([held, room, none].concat().iter().all(|count| *count > 40), "{met:?}");
}
