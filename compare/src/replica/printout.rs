//! The printout program's output as a function of its input.

use std::io::Write;

use crate::replica::panel::Panel;
use crate::replica::refusal::*;
use crate::replica::wire::{parse, Message, Parsed};

/// Input beyond these bytes is not looked at.
pub const MOST_BYTES: usize = 65_536;

const SHOP_BYTES: usize = 2;

pub fn printout(input: &[u8]) -> Vec<u8> {
    let input = &input[..input.len().min(MOST_BYTES)];
    let mut out = Vec::new();
    print_shift(input, &mut out).expect("writing to memory cannot fail");
    out
}

fn print_shift(input: &[u8], out: &mut Vec<u8>) -> std::io::Result<()> {
    if input.len() < SHOP_BYTES {
        return writeln!(out, "board refused {CUT_SHORT}");
    }
    let (refusal, mut panel) = Panel::fresh(input[0], input[1]);
    if refusal != ACCEPTED {
        return writeln!(out, "board refused {refusal}");
    }
    writeln!(out, "board {} {}", panel.panels(), panel.own())?;
    print_messages(&mut panel, input, out)?;
    print_totals(&panel, out)?;
    print_registers(&panel, out)
}

fn print_messages(panel: &mut Panel, input: &[u8], out: &mut Vec<u8>) -> std::io::Result<()> {
    let mut at = SHOP_BYTES;
    let mut place = 1;
    loop {
        match parse(input, at) {
            Parsed::Message(message, taken) => {
                print_message(panel, place, &message, out)?;
                at += taken;
            }
            Parsed::End => return Ok(()),
            Parsed::Refused(refusal) => return writeln!(out, "{place} - - - {refusal} 0"),
        }
        place += 1;
    }
}

fn print_message(
    panel: &mut Panel,
    place: usize,
    message: &Message,
    out: &mut Vec<u8>,
) -> std::io::Result<()> {
    let undone_before = panel.undos_done();
    let answer = match message {
        Message::Request(request) => panel.hear(request),
        Message::Settlement(number) => panel.settle(*number),
    };
    panel.run_due();
    let number = message.number();
    writeln!(
        out,
        "{place} {} {} {} {} {}",
        message.kind(),
        number.panel.0,
        number.event.0,
        answer.refusal,
        panel.undos_done() - undone_before
    )
}

fn print_totals(panel: &Panel, out: &mut Vec<u8>) -> std::io::Result<()> {
    writeln!(
        out,
        "settled {} unsettled {} undone {} carried {}",
        panel.committed().len(),
        panel.tentative().len(),
        panel.undos_done(),
        panel.carry_outs_done()
    )
}

fn print_registers(panel: &Panel, out: &mut Vec<u8>) -> std::io::Result<()> {
    for (r, value) in panel.registers().iter().enumerate() {
        if *value != 0 {
            writeln!(out, "register {r} {value}")?;
        }
    }
    Ok(())
}
