//! The test of two panels side by side on one shop after the other: what the
//! calls of each panel show, what they show where two panels are cut at a moment
//! in the middle, and the printouts of two panels that made nothing.

pub mod account;
pub mod bus;
pub mod evidence;
pub mod fingerprint;
pub mod habits;
pub mod histories;
pub mod own;
pub mod prints;
pub mod replay;
pub mod running;
pub mod shrink;
pub mod side_by_side;
pub mod standing;

use std::fmt::{self, Display, Formatter};

use crate::byte_test::difference::{Case, Function};
use crate::drawing::random::Random;
use crate::interface::board::{Board, MOST_PRINTED};
use crate::replica::calls::{self, ANSWER_SIZE};
use crate::replica::refusal::REFUSALS;
use crate::shop_test::account::{Account, Change};
use crate::shop_test::histories::{History, Shop};
use crate::shop_test::prints::{PrintFinding, Prints};
use crate::shop_test::side_by_side::{findings, Finding, Tally};

/// What was tested so far.
#[derive(Default)]
pub struct Counts {
    pub shops: usize,
    pub tally: Tally,
    /// Pairs that were cut in the middle, besides those of the tally.
    pub cut_pairs: usize,
    pub printed_pairs: usize,
    pub messages: usize,
}

pub enum Difference {
    /// By the answers of the board.
    Found(Shop, Vec<Finding>),
    Printed(Prints, PrintFinding),
    /// The boards answer or print the same bytes differently.
    Bytes(Case),
    /// By what this crate's own panel shows of its calls.
    Shown(Shop, String),
}

impl Difference {
    /// What found it.
    pub fn checks(&self) -> Vec<String> {
        match self {
            Difference::Found(_, findings) => {
                findings.iter().map(|finding| format!("{:?}", finding.check)).collect()
            }
            Difference::Printed(_, PrintFinding::Pair(_)) => vec!["PrintedPair".into()],
            Difference::Printed(_, PrintFinding::Definition(_)) => vec!["PrintedDefinition".into()],
            Difference::Bytes(_) => vec!["Bytes".into()],
            Difference::Shown(..) => vec!["Shown".into()],
        }
    }

    /// The least part of it, in words; a difference of bytes has its own.
    pub fn told(&self, name: &str, board: &dyn Board) -> String {
        match self {
            Difference::Found(shop, findings) => {
                let small = shrink::shrunk(board, shop, &findings[0]);
                let mut found = shrink::found(board, &small);
                found.retain(|finding| finding.check == findings[0].check);
                shrink::show(name, board, &small, &found[0])
            }
            Difference::Printed(prints, _) => {
                let mut out = vec![0; MOST_PRINTED];
                let small = prints.shrunk(board, &mut out);
                let found = small.found(&small.texts(board, &mut out)).0;
                small.show(name, &found.expect("what is shrunk still differs"))
            }
            Difference::Bytes(case) => format!("{} bytes", case.bytes.len()),
            Difference::Shown(shop, _) => {
                let shown = |shop: &Shop| own::found_of(board, shop);
                let small = shrink::with_fewer_calls(shop, |shop| shown(shop).is_some());
                let told = shown(&small).expect("what is shrunk is still found");
                shrink::show_calls(&format!("what the own panel shows: {told}"), board, &small)
            }
        }
    }
}

/// A board that is tested, and one that must say the same.
pub struct ShopTest<'a> {
    board: &'a dyn Board,
    other: Option<&'a dyn Board>,
    pub counts: Counts,
    out: Vec<u8>,
    other_out: Vec<u8>,
}

/// How many percent of the shops are also cut in the middle, and printed.
const CUT: usize = 35;
const PRINTED: usize = 50;

impl<'a> ShopTest<'a> {
    pub fn new(board: &'a dyn Board, other: Option<&'a dyn Board>) -> ShopTest<'a> {
        ShopTest {
            board,
            other,
            counts: Counts::default(),
            out: vec![0; MOST_PRINTED],
            other_out: vec![0; MOST_PRINTED],
        }
    }

    /// Tests a shop, with at most one difference of each part.
    pub fn test(&mut self, seed: u64) -> Vec<Difference> {
        let mut random = Random::new(seed);
        let drawn = bus::draw(random.word());
        self.counts.shops += 1;
        let mut differences = Vec::new();
        match self.accounts(&drawn.shop) {
            Err(difference) => differences.push(difference),
            Ok(accounts) if random.percent(CUT) => {
                let cut = cut_in_the_middle(&drawn.shop, &accounts, &mut random);
                differences.extend(cut.and_then(|shop| self.test_cut(&shop)));
            }
            Ok(_) => {}
        }
        if random.percent(PRINTED) {
            let prints = prints::draw(&drawn, random.word());
            differences.extend(prints.and_then(|prints| self.test_prints(prints)));
        }
        differences
    }

    fn test_cut(&mut self, shop: &Shop) -> Option<Difference> {
        let before = self.counts.tally;
        let difference = self.accounts(shop).err();
        self.counts.cut_pairs += self.counts.tally.end_pairs - before.end_pairs;
        self.counts.tally.end_pairs = before.end_pairs;
        self.counts.tally.panels = before.panels;
        difference
    }

    /// The accounts of all panels of a shop, unless there is a difference.
    fn accounts(&mut self, shop: &Shop) -> Result<Vec<Account>, Difference> {
        let lists = shop.lists();
        let mut accounts = Vec::new();
        let mut different = None;
        for list in &lists {
            let length = calls::count(list) * ANSWER_SIZE;
            grow(&mut self.out, length);
            let ran = self.board.run(list, &mut self.out[..length]);
            accounts.push(Account::read(list, &self.out[..length]));
            if let Some(other) = self.other {
                grow(&mut self.other_out, length);
                let other_ran = other.run(list, &mut self.other_out[..length]);
                let differs = ran != other_ran || self.out[..length] != self.other_out[..length];
                different = different.or_else(|| differs.then(|| run_case(list)));
            }
        }
        let found = findings(&accounts, &mut self.counts.tally);
        if !found.is_empty() {
            return Err(Difference::Found(shop.clone(), found));
        }
        if let Some(case) = different {
            return Err(Difference::Bytes(case));
        }
        for (place, (list, account)) in lists.iter().zip(&accounts).enumerate() {
            if let Some(told) = own::found(list, account) {
                return Err(Difference::Shown(shop.only(&[place]), told));
            }
        }
        Ok(accounts)
    }

    fn test_prints(&mut self, prints: Prints) -> Option<Difference> {
        let texts = prints.texts(self.board, &mut self.out);
        let (found, same) = prints.found(&texts);
        if let Some(found) = found {
            return Some(Difference::Printed(prints, found));
        }
        self.counts.printed_pairs += same as usize;
        self.counts.messages += prints.inputs.iter().map(|(_, messages)| messages.len()).sum::<usize>();
        let others = prints.texts(self.other?, &mut self.other_out);
        let which = (0..2).find(|which| texts[*which] != others[*which])?;
        let bytes = prints.input(which);
        Some(Difference::Bytes(Case { function: Function::Print, bytes, at: 0, room: MOST_PRINTED }))
    }
}

fn grow(out: &mut Vec<u8>, length: usize) {
    if out.len() < length {
        out.resize(length, 0);
    }
}

fn run_case(list: &[u8]) -> Case {
    let room = calls::count(list) * ANSWER_SIZE;
    Case { function: Function::Run, bytes: list.to_vec(), at: 0, room }
}

/// Two panels of a shop up to moments before the end at which they happen to have
/// accepted the same, idle or not.
fn cut_in_the_middle(shop: &Shop, accounts: &[Account], random: &mut Random) -> Option<Shop> {
    if accounts.len() < 2 {
        return None;
    }
    let one = random.below(accounts.len());
    let other = (one + 1 + random.below(accounts.len() - 1)) % accounts.len();
    let first = &accounts[one].changes;
    let from = random.below(first.len().max(1));
    let end = accounts[one].end();
    let before_end = |change: &&Change| change.state != end && change.state.requests <= end.requests;
    let (here, there) = first.iter().skip(from).filter(before_end).find_map(|here| {
        let like = accounts[other].changes.iter().find(|there| there.state == here.state);
        like.map(|there| (here, there))
    })?;
    let histories = [(one, here), (other, there)].map(|(which, change)| {
        let History { own, calls } = &shop.histories[which];
        let last = last_moment(&accounts[which], change).min(calls.len());
        let moment = change.at + 1 + random.below(last - change.at);
        History { own: *own, calls: calls[..moment].to_vec() }
    });
    Some(Shop { histories: histories.to_vec(), front: false, ..shop.clone() })
}

/// How many calls of a list can be taken with nothing accepted after a change.
fn last_moment(account: &Account, change: &Change) -> usize {
    let next = account.changes.iter().find(|next| next.at > change.at);
    next.map_or(account.calls, |next| next.at)
}

/// The refusals that were met, each with how often.
fn by_number(refusals: &[usize; REFUSALS]) -> String {
    let met = (1..REFUSALS).filter(|number| refusals[*number] > 0);
    met.map(|number| format!("{number}: {}", refusals[number])).collect::<Vec<_>>().join(", ")
}

impl Display for Counts {
    fn fmt(&self, out: &mut Formatter) -> fmt::Result {
        let Tally { panels, calls, refusals, largest, end_pairs, middle_pairs, places, registers, .. } =
            self.tally;
        writeln!(
            out,
            "shops: {} with {panels} panels, which hold up to {largest} requests; {calls} calls, of which {} \
             were refused: {}",
            self.shops,
            refusals[1..].iter().sum::<usize>(),
            by_number(&refusals)
        )?;
        writeln!(
            out,
            "pairs of panels that accepted the same: at the end {end_pairs}, in the middle {middle_pairs}, \
             cut in the middle {}; printed {} with {} messages",
            self.cut_pairs, self.printed_pairs, self.messages
        )?;
        write!(
            out,
            "places of orders compared with the definition: {places}; registers read: {registers}; \
             stable replies: {}, and {} times at another panel",
            self.tally.stable, self.tally.stable_elsewhere
        )
    }
}
