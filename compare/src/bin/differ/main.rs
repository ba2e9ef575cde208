//! Compares the proved library, or the peer in C, with this crate on the stored
//! cases and then on seeded ones, lays the panels of seeded shops side by side,
//! and drives panels of both call by call. Ends at the first difference, shrunk.

mod asked;
mod comparison;
mod counts;

use std::{env, io, process};

use mizzencord_compare::drawing::random::Random;
use mizzencord_compare::interface::board::{Board, Handwritten};
use mizzencord_compare::interface::library::{Library, Peer};
use mizzencord_compare::interface::library_panel::Panel;
use mizzencord_compare::panel_test::tally::PanelTally;
use mizzencord_compare::panel_test::{self, Told};
use mizzencord_compare::progress::{progress, progress_ends};
use mizzencord_compare::shop_test::{Difference, ShopTest};

use asked::{Asked, HELP};

/// How often the progress is told.
const PROGRESS_LINES: usize = 20;

/// The library that is compared with this crate.
struct Side<'a> {
    name: &'static str,
    board: &'a dyn Board,
}

fn main() -> io::Result<()> {
    let words: Vec<String> = env::args().skip(1).collect();
    let Some(asked) = Asked::read(&words) else {
        eprintln!("{HELP}");
        process::exit(2);
    };
    if asked.peer {
        compare::<Peer>(&Side { name: "peer in C", board: &Peer }, &asked)
    } else {
        compare_proved(&asked)
    }
}

#[cfg(feature = "proved")]
fn compare_proved(asked: &Asked) -> io::Result<()> {
    use mizzencord_compare::interface::library::Proved;
    compare::<Proved>(&Side { name: "proved", board: &Proved }, asked)
}

#[cfg(not(feature = "proved"))]
fn compare_proved(_: &Asked) -> io::Result<()> {
    eprintln!("differ: built without the proved library, which the feature `proved` links; --peer compares the peer");
    process::exit(2);
}

fn compare<L: Library>(side: &Side, asked: &Asked) -> io::Result<()> {
    compare_version(side);
    if let Some(calls) = asked.calls {
        comparison::compare_calls(side, asked.seed, calls)?;
    }
    if let Some(shops) = asked.shops {
        compare_shops(side, asked.seed, shops);
    }
    if let Some(calls) = asked.panels {
        compare_panels::<L>(asked.seed, calls);
    }
    if let Some(calls) = asked.soak {
        soak::<L>(asked.seed, calls);
    }
    println!("no difference");
    Ok(())
}

/// Both are of one revision of the header.
fn compare_version(side: &Side) {
    let (library, handwritten) = (side.board.version(), Handwritten.version());
    if library != handwritten {
        println!("DIFFERENCE\nversion\n  {}: {library}\n  handwritten: {handwritten}", side.name);
        process::exit(1);
    }
}

/// Drives panels of the library and of this crate call by call.
fn compare_panels<L: Library>(seed: u64, calls: usize) {
    let mut tally = PanelTally::default();
    told_or_ended(panel_test::every_fresh::<Panel<L>>(&mut tally));
    println!("fresh of every shop: {} with a call after it", tally.shifts);
    let tell = &mut told_at_times("panel by panel", calls);
    let compared = panel_test::compare::<Panel<L>>(seed, calls, tell);
    println!("panel by panel, seed {seed}\n{}", told_or_ended(compared));
}

/// Drives one panel in one memory over many shifts.
fn soak<L: Library>(seed: u64, calls: usize) {
    let soaked = panel_test::soak::<Panel<L>>(seed, calls, &mut told_at_times("on one memory", calls));
    println!("on one memory, seed {seed}\n{}", told_or_ended(soaked));
}

/// Tells the progress every so many calls.
fn told_at_times(what: &str, calls: usize) -> impl FnMut(usize) + '_ {
    let mut next_line = 0;
    move |done| {
        if done >= next_line {
            progress(&format!("{done} of {calls} calls {what}"));
            next_line += calls.div_ceil(PROGRESS_LINES);
        }
    }
}

/// What was compared; at a difference it is shown and the program ends.
fn told_or_ended<T>(compared: Result<T, Told>) -> T {
    progress_ends();
    compared.unwrap_or_else(|told| {
        println!("DIFFERENCE\n{told}");
        process::exit(1);
    })
}

/// Lays the panels of shops side by side: those of the library, with the same
/// answers from this crate's.
fn compare_shops(side: &Side, seed: u64, shops: usize) {
    let mut random = Random::new(seed);
    let mut test = ShopTest::new(side.board, Some(&Handwritten));
    for shop in 0..shops {
        if shop % shops.div_ceil(PROGRESS_LINES) == 0 {
            progress(&format!("{shop} of {shops} shops"));
        }
        match test.test(random.word()).first() {
            None => {}
            Some(Difference::Bytes(case)) => comparison::report(side, case),
            Some(difference) => {
                progress_ends();
                println!("DIFFERENCE\n{}", difference.told(side.name, side.board));
                process::exit(1);
            }
        }
    }
    progress_ends();
    println!("side by side, seed {seed}\n{}", test.counts);
}
