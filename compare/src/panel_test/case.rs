//! Shifts of panels that a library holds: what is done with them, whether it
//! leads to the same as on this crate's panels, and the least part that does not.

use std::fmt::Write;

use crate::interface::memory::{Fill, Start, Watched};
use crate::panel_test::pair::{Pair, Step};
use crate::panel_test::tally::PanelTally;
use crate::replica::wire::{self, Parsed};
use crate::telling::{call_told, message_told};

#[derive(Clone, Debug, PartialEq, Eq)]
pub struct PanelCase {
    pub start: Start,
    /// What fresh is called with for each panel.
    pub shops: Vec<(u8, u8)>,
    /// Which panel does what.
    pub steps: Vec<(usize, Step)>,
}

/// What is different, and after how many steps.
#[derive(Clone, Debug, PartialEq, Eq)]
pub struct Found {
    pub after: usize,
    pub told: String,
}

impl PanelCase {
    pub fn run<W: Watched>(&self, tally: &mut PanelTally) -> Option<Found> {
        let fresh = |shop: &(u8, u8)| Pair::<W>::fresh(&self.start, *shop, 0);
        let pairs: Result<Vec<Pair<W>>, String> = self.shops.iter().map(fresh).collect();
        match pairs {
            Err(told) => Some(Found { after: 0, told }),
            Ok(mut pairs) => self.run_on(&mut pairs, tally),
        }
    }

    /// Does the steps on panels that are made already, and shows all at the end.
    pub fn run_on<W: Watched>(&self, pairs: &mut [Pair<W>], tally: &mut PanelTally) -> Option<Found> {
        tally.shifts += pairs.len();
        for (at, (who, step)) in self.steps.iter().enumerate() {
            if let Err(told) = pairs[*who].take(step, tally) {
                return Some(Found { after: at + 1, told });
            }
        }
        let shown = pairs.iter_mut().find_map(|pair| pair.show_all(tally).err());
        shown.map(|told| Found { after: self.steps.len(), told })
    }

    fn found<W: Watched>(&self) -> Option<Found> {
        self.run::<W>(&mut PanelTally::default())
    }

    /// The least part found that still leads to a difference: what is behind it
    /// is cut off, and runs of steps are dropped, long ones first.
    pub fn shrunk<W: Watched>(&self) -> PanelCase {
        let mut small = self.clone();
        small.start_plainly::<W>();
        small.cut_behind::<W>();
        let mut length = small.steps.len();
        while length > 0 {
            let before = small.steps.len();
            small.drop_runs::<W>(length);
            if length > 1 || small.steps.len() == before {
                length /= 2;
            }
        }
        small
    }

    fn start_plainly<W: Watched>(&mut self) {
        let plain = PanelCase { start: Start::ZEROS, ..self.clone() };
        if plain.found::<W>().is_some() {
            *self = plain;
        }
    }

    fn cut_behind<W: Watched>(&mut self) {
        if let Some(found) = self.found::<W>() {
            self.steps.truncate(found.after);
        }
    }

    fn drop_runs<W: Watched>(&mut self, length: usize) {
        let mut start = 0;
        while start < self.steps.len() {
            let mut fewer = self.clone();
            fewer.steps.drain(start..(start + length).min(self.steps.len()));
            if fewer.found::<W>().is_some() {
                *self = fewer;
            } else {
                start += length;
            }
        }
    }

    /// What is different, and the steps up to there in words.
    pub fn told<W: Watched>(&self) -> String {
        let Some(Found { after, told }) = self.found::<W>() else { return "no difference".into() };
        let mut text = format!("panel at step {after}: {told}\n");
        let memory = match &self.start.fill {
            Fill::Byte(byte) => format!("bytes {byte:#04x}"),
            Fill::Random(seed) => format!("random bytes of seed {seed}"),
            Fill::Left(_) => "what the shift before left".into(),
        };
        let place = if self.start.odd { "8 past a multiple of 16" } else { "a multiple of 16" };
        let _ = writeln!(text, "memory before fresh: {memory}, at {place}");
        for (who, (panels, own)) in self.shops.iter().enumerate() {
            let _ = writeln!(text, "panel {who}: fresh {panels} {own}");
        }
        for (at, (who, step)) in (1..=after).zip(&self.steps) {
            let _ = writeln!(text, "{at}: panel {who}: {}", step_told(step));
        }
        text
    }
}

fn step_told(step: &Step) -> String {
    match step {
        Step::Call(call) => call_told(call),
        Step::Receive(bytes, at) => {
            let read = match wire::parse(bytes, *at) {
                Parsed::Message(message, _) => message_told(&message),
                Parsed::End => "the end".into(),
                Parsed::Refused(refusal) => format!("refused {refusal}"),
            };
            format!("receive at {at} of {bytes:02x?}: {read}")
        }
        Step::Fresh(panels, own) => format!("fresh {panels} {own}"),
        Step::Copy(_) => "copied; the copy gets each call too".into(),
        Step::Move(_) => "goes on in other memory".into(),
    }
}
