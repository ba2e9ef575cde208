//! The comparison panel by panel: seeded shifts with the panel kept between the
//! calls, one panel's memory over many shifts, and fresh for every shop.

pub mod case;
pub mod draw;
pub mod pair;
pub mod tally;

use crate::drawing::random::Random;
use crate::interface::memory::{Fill, Start, Watched};
use crate::panel_test::case::{Found, PanelCase};
use crate::panel_test::pair::{Pair, Step};
use crate::panel_test::tally::PanelTally;
use crate::replica::call::Call;
use crate::replica::request::{Clock, Operation, READ};

/// How long the shifts of one round are.
const LENGTHS: [usize; 12] = [1, 4, 10, 20, 40, 60, 60, 100, 200, 400, 400, 1500];

/// How many whole shops a round has.
const SHOPS: usize = 24;

/// How many calls pass in a soak until the panel is shown.
const SOAKED_BETWEEN: usize = 50;

/// A difference in words, shrunk where it can be.
pub type Told = String;

/// The shifts of one round: some of each length, a long one and whole shops.
fn round(random: &mut Random) -> impl Iterator<Item = PanelCase> + '_ {
    (0..=LENGTHS.len() + SHOPS).map(|place| match LENGTHS.get(place) {
        Some(length) => draw::shift(random.word(), *length),
        None if place == LENGTHS.len() => draw::long_shift(random.word()),
        None => draw::shop(random.word()),
    })
}

/// Compares at least so many calls, and tells after each shift how many there
/// were.
pub fn compare<W: Watched>(seed: u64, calls: usize, tell: &mut dyn FnMut(usize)) -> Result<PanelTally, Told> {
    let mut random = Random::new(seed);
    let mut tally = PanelTally::default();
    while tally.calls < calls {
        for case in round(&mut random) {
            if case.run::<W>(&mut tally).is_some() {
                return Err(case.shrunk::<W>().told::<W>());
            }
            tell(tally.calls);
        }
    }
    Ok(tally)
}

/// The same with one panel in one memory, which fresh makes anew for each shift.
pub fn soak<W: Watched>(seed: u64, calls: usize, tell: &mut dyn FnMut(usize)) -> Result<PanelTally, Told> {
    let mut random = Random::new(seed);
    let mut tally = PanelTally::default();
    let mut panel = [first_panel::<W>(&Start::ZEROS, (1, 0), SOAKED_BETWEEN)?];
    while tally.calls < calls {
        let case = soaked(&mut random, panel[0].words());
        let (panels, own) = case.shops[0];
        let fresh = panel[0].take(&Step::Fresh(panels, own), &mut tally);
        let found = fresh.err().map(|told| Found { after: 0, told });
        if let Some(found) = found.or_else(|| case.run_on(&mut panel, &mut tally)) {
            return Err(soaked_told::<W>(&case, &found, tally.shifts));
        }
        tell(tally.calls);
    }
    Ok(tally)
}

/// The panel that many shifts are driven on.
fn first_panel<W: Watched>(start: &Start, shop: (u8, u8), rest: usize) -> Result<Pair<W>, Told> {
    Pair::fresh(start, shop, rest).map_err(|told| format!("panel at its first fresh: {told}"))
}

/// A shift that begins on what the one before left.
fn soaked(random: &mut Random, left: &[u64]) -> PanelCase {
    let mut case = match random.below(20) {
        0 => draw::long_shift(random.word()),
        place => draw::shift(random.word(), LENGTHS[place % LENGTHS.len()]),
    };
    case.start = Start { fill: Fill::Left(left.to_vec()), odd: case.start.odd };
    case.steps.retain(|(_, step)| !matches!(step, Step::Copy(_) | Step::Move(_)));
    case
}

/// Shrunk where the shift alone, on the memory that it began on, shows it.
fn soaked_told<W: Watched>(case: &PanelCase, found: &Found, shifts: usize) -> Told {
    if case.run::<W>(&mut PanelTally::default()).is_some() {
        return case.shrunk::<W>().told::<W>();
    }
    let Found { after, told } = found;
    format!("panel at step {after} of shift {shifts} on one memory, not in the shift alone: {told}")
}

/// Fresh for all numbers of panels and own panels, good or bad, one after the
/// other on one memory, each with one call after it.
pub fn every_fresh<W: Watched>(tally: &mut PanelTally) -> Result<(), Told> {
    let mut panel = [first_panel::<W>(&Start { fill: Fill::Byte(0xaa), odd: true }, (8, 7), 0)?];
    for shop in 0..=u16::MAX {
        let [panels, own] = shop.to_le_bytes();
        let steps = vec![(0, Step::Fresh(panels, own)), (0, Step::Call(first_call()))];
        let case = PanelCase { start: Start::ZEROS, shops: vec![(1, 0)], steps };
        if let Some(found) = case.run_on(&mut panel, tally) {
            return Err(soaked_told::<W>(&case, &found, tally.shifts));
        }
    }
    Ok(())
}

/// A call that every fresh panel accepts and whose answer has its number.
fn first_call() -> Call {
    Call::Make(Operation::new(READ, 63, 0, 0), true, Clock(7))
}
