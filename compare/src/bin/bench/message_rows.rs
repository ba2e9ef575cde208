//! Rows of bus messages read and written, and of printouts.

use std::hint::black_box;
use std::time::Instant;

use mizzencord_compare::interface::board::{Board, MOST_PRINTED};
use mizzencord_compare::interface::header;
use mizzencord_compare::replica::request::*;
use mizzencord_compare::replica::wire::append;
use mizzencord_compare::replica::wire::{Message, STRONG_LENGTH};

use crate::limits;
use crate::rows::{Row, MOST_HEARD};
use crate::sampling::{time_over_bytes, ByteWork};
use crate::shift::{Order, Shift};

#[derive(Clone)]
struct Parse(Vec<u8>);

impl ByteWork for Parse {
    fn seconds<B: Board>(&mut self, board: &B, runs: usize) -> f64 {
        let start = Instant::now();
        for _ in 0..runs {
            black_box(&board.read(black_box(&self.0), 0));
        }
        start.elapsed().as_secs_f64() / runs as f64
    }
}

#[derive(Clone)]
struct Write(header::Message);

impl ByteWork for Write {
    fn seconds<B: Board>(&mut self, board: &B, runs: usize) -> f64 {
        let mut part = [0; STRONG_LENGTH];
        let start = Instant::now();
        for _ in 0..runs {
            black_box(&board.write(black_box(&self.0), black_box(&mut part)));
        }
        start.elapsed().as_secs_f64() / runs as f64
    }
}

/// Printouts of inputs that take turns.
#[derive(Clone)]
struct Print {
    inputs: Vec<Vec<u8>>,
    out: Vec<u8>,
}

impl ByteWork for Print {
    fn seconds<B: Board>(&mut self, board: &B, runs: usize) -> f64 {
        let runs = runs * self.inputs.len();
        let start = Instant::now();
        for input in self.inputs.iter().cycle().take(runs) {
            assert_ne!(board.print(black_box(input), &mut self.out), 0);
        }
        start.elapsed().as_secs_f64() / runs as f64
    }
}

pub fn message_rows() -> Vec<Row> {
    let weak = Shift::of(64, Order::Falling, false).requests_heard()[2];
    let context = NumberSet([0x0123_4567_89ab_cdef; PANELS]);
    let strong = Request { strong: true, context, ..weak };
    let kinds = [
        ("a weak message", Message::Request(weak)),
        ("a strong message", Message::Request(strong)),
        ("a settlement", Message::Settlement(weak.number)),
    ];
    let mut rows = Vec::new();
    for (kind, message) in &kinds {
        let mut bytes = Vec::new();
        append(&mut bytes, message);
        let what = format!("parse of {kind}");
        rows.push(Row::new(&what, time_over_bytes(&what, Parse(bytes)), limits::PARSE));
    }
    for (kind, message) in &kinds {
        let what = format!("write of {kind}");
        rows.push(Row::new(&what, time_over_bytes(&what, Write(message.into())), limits::WRITE));
    }
    rows
}

/// Printouts of what a panel hears at most, settled.
pub fn printout_rows() -> Vec<Row> {
    let orders = [(Order::Falling, limits::SHIFT_FALLING), (Order::Shuffled(0), limits::SHIFT_SHUFFLED)];
    let row = |(order, limits)| {
        let shift = Shift { order, settlements: true, ..Shift::heard_in_order(MOST_HEARD) };
        let inputs = shift.orders().iter().map(Shift::input).collect();
        let what = format!("a printout: 448 requests, {}", shift.name());
        Row::new(&what, time_over_bytes(&what, Print { inputs, out: vec![0; MOST_PRINTED] }), limits)
    };
    orders.into_iter().map(row).collect()
}
