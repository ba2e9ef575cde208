//! The reader's and the writer's refusals in their order.

use mizzencord_compare::replica::request::*;
use mizzencord_compare::replica::wire::{parse, write, Message, Parsed};

use crate::build::*;

const WEAK: [u8; 18] = [18, 0, 1, 0, 7, 64, 4, 3, 2, 1, 5, 9, 8, 0, 13, 12, 11, 10];

#[test]
fn the_fields_of_a_weak_request() {
    let request = weak(7, 64, 0x01020304, Operation::new(5, 9, 8, 0x0a0b0c0d));
    assert_eq!(parse(&WEAK, 0), Parsed::Message(Message::Request(request), 18));
    let mut part = [0xee; 20];
    assert_eq!(write(&Message::Request(request), &mut part), (0, 18));
    assert_eq!(part[..18], WEAK);
    assert_eq!(part[18..], [0xee; 2]);
}

#[test]
fn the_context_of_a_strong_request() {
    let mut bytes = [0; 82];
    bytes[..18].copy_from_slice(&WEAK);
    bytes[0] = 82;
    bytes[2] = 2;
    bytes[18] = 0x01;
    bytes[18 + 8 + 7] = 0x80;
    bytes[81] = 0x40;
    let request = strong(7, 64, 0x01020304, Operation::new(5, 9, 8, 0x0a0b0c0d), &[(0, 1), (1, 64), (7, 63)]);
    assert_eq!(parse(&bytes, 0), Parsed::Message(Message::Request(request), 82));
    let mut part = [0xee; 82];
    assert_eq!(write(&Message::Request(request), &mut part), (0, 82));
    assert_eq!(part, bytes);
}

#[test]
fn a_settlement() {
    let bytes = [9, 9, 6, 0, 3, 0, 200, 0, 1];
    let message = Message::Settlement(Number::new(200, 0));
    assert_eq!(parse(&bytes, 2), Parsed::Message(message, 6));
    let mut part = [0xee; 7];
    assert_eq!(write(&message, &mut part), (0, 6));
    assert_eq!(part, [6, 0, 3, 0, 200, 0, 0xee]);
}

#[test]
fn the_end() {
    assert_eq!(parse(&[], 0), Parsed::End);
    assert_eq!(parse(&WEAK, 18), Parsed::End);
    assert_eq!(parse(&WEAK, 19), Parsed::End);
    assert_eq!(parse(&WEAK, usize::MAX), Parsed::End);
}

#[test]
fn the_order_of_reading() {
    for left in 1..=3 {
        assert_eq!(parse(&[255; 3][..left], 0), Parsed::Refused(16));
    }
    // Kind, then length, then the bytes that are there, then the spare byte.
    assert_eq!(parse(&[19, 0, 4, 0], 0), Parsed::Refused(18));
    assert_eq!(parse(&[18, 0, 0, 0], 0), Parsed::Refused(18));
    assert_eq!(parse(&[18, 0, 1, 1], 0), Parsed::Refused(18));
    assert_eq!(parse(&[19, 0, 1, 0], 0), Parsed::Refused(17));
    assert_eq!(parse(&[18, 1, 1, 0], 0), Parsed::Refused(17));
    assert_eq!(parse(&[18, 0, 2, 0], 0), Parsed::Refused(17));
    assert_eq!(parse(&[18, 0, 1, 0], 0), Parsed::Refused(16));
    assert_eq!(parse(&[6, 0, 3, 0, 1], 0), Parsed::Refused(16));
    let mut spare = WEAK;
    spare[13] = 1;
    assert_eq!(parse(&spare[..17], 0), Parsed::Refused(16));
    assert_eq!(parse(&spare, 0), Parsed::Refused(19));
}

#[test]
fn the_order_of_writing() {
    let weak = weak(0, 1, 0, read(0));
    let bad = Message::Request(Request { context: set_of(&[(7, 64)]), ..weak });
    let mut part = [0xee; 82];
    assert_eq!(write(&bad, &mut part), (21, 0));
    assert_eq!(write(&bad, &mut part[..3]), (21, 0));
    assert_eq!(write(&Message::Request(weak), &mut part[..17]), (20, 0));
    let strong = Message::Request(Request { strong: true, ..weak });
    assert_eq!(write(&strong, &mut part[..81]), (20, 0));
    assert_eq!(write(&Message::Settlement(weak.number), &mut part[..5]), (20, 0));
    assert_eq!(part, [0xee; 82]);
}
