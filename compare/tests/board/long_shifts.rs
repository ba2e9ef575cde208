//! Random long shifts: their orders change at the front, in the middle and near
//! the end while several hundred requests are executed.

use mizzencord_compare::byte_test::cases;
use mizzencord_compare::counting::changes::LongChanges;
use mizzencord_compare::counting::Counting;
use mizzencord_compare::drawing::long_shift::long_calls;
use mizzencord_compare::replica::call::Call;
use mizzencord_compare::replica::calls;
use mizzencord_compare::replica::printout::printout;

use crate::build::*;
use crate::long_orders::{in_clock_order, panel_with};
use crate::naive;

#[test]
fn random_long_shifts_change_by_every_call_at_every_place() {
    let (mut heard, mut made, mut settled) =
        (LongChanges::default(), LongChanges::default(), LongChanges::default());
    for seed in 0..400 {
        let (panels, own, calls) = long_calls(seed);
        let mut panel = panel(panels, own);
        for call in calls {
            let changes = match call {
                Call::Make(..) => &mut made,
                Call::Settle(_) => &mut settled,
                _ => &mut heard,
            };
            changes.carry(&mut panel, &call);
        }
        assert_eq!(panel.owed(), 0);
    }
    println!("heard {heard:?} made {made:?} settled {settled:?}");
    for changes in [heard, made, settled] {
        let LongChanges { front, middle, end } = changes;
        assert!([front, middle, end].iter().all(|count| *count > 40), "{heard:?} {made:?} {settled:?}");
    }
}

#[test]
fn random_long_printouts_change_at_every_place() {
    let mut changes = LongChanges::default();
    (0..100).for_each(|seed| changes.count_messages(&cases::long_printed(seed).bytes));
    let LongChanges { front, middle, end } = changes;
    assert!([front, middle, end].iter().all(|count| *count > 100), "{changes:?}");
}

#[test]
fn long_shifts_equal_the_naive_ones() {
    for seed in 0..3 {
        let list = cases::long_list_of_calls(seed).bytes;
        assert_eq!(String::from_utf8(calls::printed(&list)).unwrap(), naive::answers(&list), "seed {seed}");
        let input = cases::long_printed(seed).bytes;
        assert_eq!(String::from_utf8(printout(&input)).unwrap(), naive::printout(&input), "seed {seed}");
    }
}

#[test]
fn changes_are_counted_by_what_they_leave() {
    let late = |clock: u32| Call::Hear(weak(6, 64, clock, set(4, 0)));
    let changes = |requests: usize, clock: u32| {
        let mut changes = LongChanges::default();
        changes.carry(&mut panel_with(&in_clock_order(requests)), &late(clock));
        (changes.front, changes.middle, changes.end)
    };
    assert_eq!(changes(200, 5), (1, 0, 0));
    assert_eq!(changes(200, 95), (1, 0, 0));
    assert_eq!(changes(200, 105), (0, 1, 0));
    assert_eq!(changes(200, 1_905), (0, 1, 0));
    assert_eq!(changes(200, 1_915), (0, 0, 1));
    assert_eq!(changes(200, 1_995), (0, 0, 1));
    assert_eq!(changes(200, 2_005), (0, 0, 0));
    assert_eq!(changes(199, 5), (0, 0, 0));
}
