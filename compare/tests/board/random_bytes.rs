//! Bytes written are read back, bytes read are written back, and printouts
//! equal those of the naive panel.

use mizzencord_compare::drawing::inputs::printout_input;
use mizzencord_compare::drawing::messages::{bus_run, message};
use mizzencord_compare::drawing::random::Random;
use mizzencord_compare::replica::printout::printout;
use mizzencord_compare::replica::wire::{parse, write, Parsed};

use crate::naive;

#[test]
fn written_messages_are_read_back() {
    let mut random = Random::new(1);
    let mut refusals = [0; 22];
    for _ in 0..5000 {
        let message = message(&mut random);
        let mut part = [0xee; 90];
        let room = if random.percent(20) { random.below(90) } else { 90 };
        let (refusal, length) = write(&message, &mut part[..room]);
        refusals[refusal as usize] += 1;
        assert!(part[length..].iter().all(|&byte| byte == 0xee));
        if refusal == 0 {
            assert_eq!(parse(&part[..length], 0), Parsed::Message(message, length));
        }
    }
    assert!([0, 20, 21].iter().all(|&refusal| refusals[refusal] > 0));
}

#[test]
fn read_messages_are_written_back() {
    let mut random = Random::new(2);
    let mut refusals = [0; 22];
    for _ in 0..2000 {
        let bytes = bus_run(&mut random, 8);
        let mut at = 0;
        while let Parsed::Message(message, taken) = parse(&bytes, at) {
            let mut part = [0; 82];
            assert_eq!(write(&message, &mut part), (0, taken));
            assert_eq!(part[..taken], bytes[at..at + taken]);
            at += taken;
        }
        match parse(&bytes, at) {
            Parsed::Refused(refusal) => refusals[refusal as usize] += 1,
            _ => assert_eq!(at, bytes.len()),
        }
    }
    assert!((16..=19).all(|refusal| refusals[refusal] > 0), "{refusals:?}");
}

#[test]
fn printouts_equal_the_naive_ones() {
    let mut lengths = [0; 3];
    for seed in 0..250 {
        let input = printout_input(seed);
        if input.len() > 12_000 {
            continue;
        }
        assert_eq!(String::from_utf8(printout(&input)).unwrap(), naive::printout(&input), "seed {seed}");
        lengths[(input.len() > 2) as usize + (input.len() > 1000) as usize] += 1;
    }
    assert!(lengths.iter().all(|&count| count > 20), "{lengths:?}");
}
