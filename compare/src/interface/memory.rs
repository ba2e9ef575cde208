//! The memory that a panel lies in, watched from outside.

use crate::drawing::random::Random;
use crate::interface::component::{Component, OwnPanel};
use crate::interface::header::PANEL_SIZE;

pub const WORDS: usize = PANEL_SIZE / 8;

/// What the memory holds before fresh.
#[derive(Clone, Debug, PartialEq, Eq)]
pub enum Fill {
    Byte(u8),
    Random(u64),
    /// What an earlier shift left.
    Left(Vec<u64>),
}

/// The memory before fresh; at an odd place its address is no multiple of 16.
#[derive(Clone, Debug, PartialEq, Eq)]
pub struct Start {
    pub fill: Fill,
    pub odd: bool,
}

impl Start {
    pub const ZEROS: Start = Start { fill: Fill::Byte(0), odd: false };

    pub fn words(&self) -> Vec<u64> {
        match &self.fill {
            Fill::Byte(byte) => vec![u64::from_ne_bytes([*byte; 8]); WORDS],
            Fill::Random(seed) => {
                let mut random = Random::new(*seed);
                (0..WORDS).map(|_| random.word()).collect()
            }
            Fill::Left(words) => words.clone(),
        }
    }

    /// Memory of which every bit is another, at a place that is odd where this is not.
    pub fn inverted(&self) -> Start {
        Start::inverted_from(&self.words(), !self.odd)
    }

    pub fn inverted_from(words: &[u64], odd: bool) -> Start {
        Start { fill: Fill::Left(words.iter().map(|word| !word).collect()), odd }
    }
}

pub trait Watched: Component + Sized {
    /// A panel made by fresh, with the refusal, on memory that holds something.
    fn fresh_on(start: &Start, panels: u8, own: u8) -> (u8, Self);

    /// The same bytes in memory of their own.
    fn copied(&self, odd: bool) -> Self;

    /// Goes on in other memory; what lies in the old one is spoiled.
    fn moved(&mut self, odd: bool);

    /// Notes the memory as it is now.
    fn note(&mut self);

    /// Whether a byte of the panel is another than was noted.
    fn has_changed(&self) -> bool;

    /// Whether a byte before or behind the panel was ever written.
    fn has_strayed(&self) -> bool;

    /// The panel's bytes, as words.
    fn words(&self) -> &[u64];
}

/// This crate's panel lies in memory that nobody else writes.
impl Watched for OwnPanel {
    fn fresh_on(_: &Start, panels: u8, own: u8) -> (u8, OwnPanel) {
        let mut panel = OwnPanel::new();
        (panel.fresh(panels, own), panel)
    }

    fn copied(&self, _: bool) -> OwnPanel {
        self.clone()
    }

    fn moved(&mut self, _: bool) {}

    fn note(&mut self) {}

    fn has_changed(&self) -> bool {
        false
    }

    fn has_strayed(&self) -> bool {
        false
    }

    fn words(&self) -> &[u64] {
        &[]
    }
}
