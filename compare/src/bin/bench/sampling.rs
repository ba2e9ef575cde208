//! Samples of all sides in turn, and what they come to.

use std::array;
use std::hint::black_box;
use std::sync::OnceLock;
use std::time::Instant;

use mizzencord_compare::interface::board::Board;
use mizzencord_compare::interface::component::Component;
use mizzencord_compare::interface::library::{Library, Peer};
use mizzencord_compare::interface::library_panel::Panel;
use mizzencord_compare::interface::memory::{Start, Watched};
use mizzencord_compare::progress::progress;
use mizzencord_compare::replica::request::PANELS;

use crate::behind::{Behind, BoardBehind};
use crate::times::Times;
use crate::work::Work;

/// How long the timed part of a sample should take at least: less than a turn on
/// a busy machine, so that some samples are not interrupted; and how long all of
/// it may take, with the calls before.
const SAMPLE_SECONDS: f64 = 0.001;
const WHOLE_SECONDS: f64 = 0.005;

/// Samples of each side, a tenth of them where a rough figure will do.
static SAMPLES: OnceLock<usize> = OnceLock::new();

pub fn take_samples(roughly: bool) {
    SAMPLES.get_or_init(|| if roughly { 21 } else { 201 });
}

fn samples() -> usize {
    *SAMPLES.get().expect("it is said how many samples are taken")
}

/// Panels of each side that are timed in turn, each with the stack at another
/// depth: where they lie in memory matters, and no two lie alike.
const PLACES: usize = 8;
const FRAMES_BETWEEN: usize = 9;

/// A sample of a side, in seconds of one run.
type Sampler<'a> = Box<dyn FnMut(usize) -> f64 + 'a>;

/// The samplers of all sides; the proved library may be missing.
struct Sides<'a> {
    proved: Option<Sampler<'a>>,
    rust: Sampler<'a>,
    c: Sampler<'a>,
}

impl Sides<'_> {
    /// The fastest sample of each side at each place: what is timed does the same
    /// each time, and on a machine with other work most samples are interrupted.
    fn fastest(mut self) -> [Times; PLACES] {
        let proved = self.proved.as_ref().map(|_| f64::INFINITY);
        let mut least = [Times { proved, rust: f64::INFINITY, c: f64::INFINITY }; PLACES];
        for sample in 0..samples() {
            let least = &mut least[sample % PLACES];
            if let (Some(least), Some(proved)) = (&mut least.proved, &mut self.proved) {
                *least = least.min(proved(sample));
            }
            least.rust = least.rust.min((self.rust)(sample));
            least.c = least.c.min((self.c)(sample));
        }
        least
    }
}

fn library_panel<L: Library>() -> Panel<L> {
    Panel::fresh_on(&Start::ZEROS, PANELS as u8, PANELS as u8 - 1).1
}

/// Samples of a work on panels that take turns.
fn sampler<'a, C: Component + 'a>(work: &'a Work, panel: impl Fn() -> C) -> Sampler<'a> {
    let mut panels: [C; PLACES] = array::from_fn(|_| panel());
    let runs = work.runs(&mut panels[0], SAMPLE_SECONDS, WHOLE_SECONDS);
    Box::new(move |sample| {
        let place = sample % PLACES;
        further_down(place * FRAMES_BETWEEN, &mut || work.seconds(&mut panels[place], runs))
    })
}

/// Does something with the stack so many frames further down.
#[inline(never)]
fn further_down(frames: usize, act: &mut dyn FnMut() -> f64) -> f64 {
    let room = black_box([0u64; 2]);
    let done = if frames == 0 { act() } else { further_down(frames - 1, act) };
    black_box(&room);
    done
}

#[cfg(feature = "proved")]
fn of_proved<'a>(work: &'a Work) -> Option<Sampler<'a>> {
    Some(sampler(work, library_panel::<mizzencord_compare::interface::library::Proved>))
}

#[cfg(not(feature = "proved"))]
fn of_proved(_: &Work) -> Option<Sampler<'_>> {
    None
}

/// What one run of the timed calls takes at each place.
pub fn times_by_place(name: &str, work: &Work) -> [Times; PLACES] {
    progress(name);
    let (rust, c) = (sampler(work, Behind::default), sampler(work, library_panel::<Peer>));
    Sides { proved: of_proved(work), rust, c }.fastest()
}

/// What one run of the timed calls takes where it takes least.
pub fn time_of(name: &str, work: &Work) -> Times {
    Times::of_all(&times_by_place(name, work), least)
}

fn least(seconds: &[f64]) -> f64 {
    seconds.iter().copied().fold(f64::INFINITY, f64::min)
}

pub fn mean(seconds: &[f64]) -> f64 {
    seconds.iter().sum::<f64>() / seconds.len() as f64
}

pub fn most(seconds: &[f64]) -> f64 {
    seconds.iter().copied().fold(0.0, f64::max)
}

/// Work over bytes alone, which says the seconds of one run over so many.
pub trait ByteWork {
    fn seconds<B: Board>(&mut self, board: &B, runs: usize) -> f64;
}

fn byte_sampler<'a, B: Board + 'a>(board: B, mut work: impl ByteWork + 'a) -> Sampler<'a> {
    let mut runs = 1;
    while work.seconds(&board, runs) * (runs as f64) < SAMPLE_SECONDS {
        runs *= 2;
    }
    Box::new(move |_| work.seconds(&board, runs))
}

#[cfg(feature = "proved")]
fn bytes_of_proved<'a>(work: impl ByteWork + 'a) -> Option<Sampler<'a>> {
    Some(byte_sampler(mizzencord_compare::interface::library::Proved, work))
}

#[cfg(not(feature = "proved"))]
fn bytes_of_proved<'a>(_: impl ByteWork + 'a) -> Option<Sampler<'a>> {
    None
}

/// What one run of work over bytes takes.
pub fn time_over_bytes(name: &str, work: impl ByteWork + Clone) -> Times {
    progress(name);
    let (rust, c) = (byte_sampler(BoardBehind, work.clone()), byte_sampler(Peer, work.clone()));
    Times::of_all(&Sides { proved: bytes_of_proved(work), rust, c }.fastest(), least)
}

/// What fresh takes.
pub fn time_of_fresh() -> Times {
    progress("fresh");
    let (rust, c) = (fresh_sampler(Behind::default()), fresh_sampler(library_panel::<Peer>()));
    Times::of_all(&Sides { proved: fresh_of_proved(), rust, c }.fastest(), least)
}

fn fresh_sampler<'a>(mut panel: impl Component + 'a) -> Sampler<'a> {
    const RUNS: usize = 100;
    Box::new(move |_| {
        let start = Instant::now();
        for _ in 0..RUNS {
            panel.fresh(PANELS as u8, PANELS as u8 - 1);
        }
        start.elapsed().as_secs_f64() / RUNS as f64
    })
}

#[cfg(feature = "proved")]
fn fresh_of_proved<'a>() -> Option<Sampler<'a>> {
    Some(fresh_sampler(library_panel::<mizzencord_compare::interface::library::Proved>()))
}

#[cfg(not(feature = "proved"))]
fn fresh_of_proved<'a>() -> Option<Sampler<'a>> {
    None
}
