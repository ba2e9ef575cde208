//! The peer in C: that it answers as the header says, through its structs, and as
//! this crate does on a part of what `compare/test --peer` compares.

use mizzencord_compare::byte_test::cases;
use mizzencord_compare::byte_test::difference::differ;
use mizzencord_compare::interface::board::{Board, Handwritten};
use mizzencord_compare::interface::header::VERSION;
use mizzencord_compare::interface::library::Peer;
use mizzencord_compare::interface::library_panel::Panel;
use mizzencord_compare::interface::memory::{Fill, Start, Watched};
use mizzencord_compare::panel_test;
use mizzencord_compare::panel_test::tally::PanelTally;

use crate::panels::{answers_as_the_header_says, receipts_as_the_header_says};

#[test]
fn the_peer_answers_as_the_header_says() {
    let start = Start { fill: Fill::Byte(0xa5), odd: true };
    answers_as_the_header_says(&mut Panel::<Peer>::fresh_on(&start, 1, 0).1);
    receipts_as_the_header_says(&mut Panel::<Peer>::fresh_on(&start, 1, 0).1);
    assert_eq!(Peer.version(), VERSION);
}

#[test]
fn panels_of_the_peer_are_no_different() {
    assert_eq!(panel_test::every_fresh::<Panel<Peer>>(&mut PanelTally::default()), Ok(()));
    let compared = panel_test::compare::<Panel<Peer>>(7, 10_000, &mut |_| ()).unwrap();
    assert!(compared.calls >= 10_000 && compared.unchanged > 1000);
    let soaked = panel_test::soak::<Panel<Peer>>(7, 10_000, &mut |_| ()).unwrap();
    assert!(soaked.calls >= 10_000);
}

#[test]
fn bytes_of_the_peer_are_no_different() {
    for seed in 0..60 {
        let (list, printed) = (cases::list_of_calls(seed, 60), cases::printed(seed));
        let written = (0..10).map(|place| cases::writing(100 * seed + place));
        let drawn = cases::readings(seed).into_iter().chain(written).chain([list, printed]);
        for case in drawn {
            assert!(!differ(&Peer, &Handwritten, &case), "{case:?}");
        }
    }
}
