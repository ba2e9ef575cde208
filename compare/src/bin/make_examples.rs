//! Writes the stored inputs and their outputs into the folder named, and what
//! the example in C prints.

use std::path::Path;
use std::{env, fs, io};

use mizzencord_compare::drawing::inputs::{awkward_input, busy_input, together_input};
use mizzencord_compare::examples::steady::{late_input, steady_input};
use mizzencord_compare::examples::two_panels;
use mizzencord_compare::replica::printout::printout;
use mizzencord_compare::replica::request::*;
use mizzencord_compare::replica::wire::append;
use mizzencord_compare::replica::wire::Message;

fn main() -> io::Result<()> {
    let folder = env::args().nth(1).unwrap_or_else(|| "../examples".into());
    let inputs = [
        ("worked", worked_input()),
        ("busy", busy_input(BUSY_SEED, 6, 70)),
        ("awkward", awkward_input(AWKWARD_SEED, 5, 1, 110)),
        ("together", together_input(TOGETHER_SEED, 5, 60)),
        ("steady", steady_input()),
        ("late", late_input()),
    ];
    for (name, input) in inputs {
        fs::write(Path::new(&folder).join(format!("{name}.bin")), &input)?;
        fs::write(Path::new(&folder).join(format!("{name}.out")), printout(&input))?;
    }
    fs::create_dir_all(Path::new(&folder).join("panel"))?;
    fs::write(Path::new(&folder).join("panel/expected.txt"), two_panels::printed())
}

const BUSY_SEED: u64 = 476;
const AWKWARD_SEED: u64 = 1453;
const TOGETHER_SEED: u64 = 136;

/// Document 01's input.
fn worked_input() -> Vec<u8> {
    let weak = |panel, clock, operation| Request {
        number: Number::new(panel, 1),
        clock: Clock(clock),
        operation,
        ..Request::default()
    };
    let mut known = NumberSet::EMPTY;
    known.insert(Number::new(1, 1).slot());
    let strong = Request {
        number: Number::new(1, 2),
        clock: Clock(12),
        operation: Operation::new(CLAIM, 0, 0, 2),
        strong: true,
        context: known,
    };
    let messages = [
        Message::Request(weak(0, 10, Operation::new(SET, 4, 0, 6))),
        Message::Request(weak(1, 5, Operation::new(ADD, 4, 0, 3))),
        Message::Request(strong),
        Message::Settlement(strong.number),
    ];
    let mut bytes = vec![3, 2];
    for message in &messages {
        append(&mut bytes, message);
    }
    bytes
}
