//! The panels of one shop, each by what it was called with, and how a list of
//! calls is ended so that its answers show what the panel holds.

use crate::interface::board::Board;
use crate::replica::call::Call;
use crate::replica::calls::{self, List, ANSWER_SIZE};
use crate::replica::panel::Panel;
use crate::replica::request::*;
use crate::shop_test::account::{Account, FIRST_CLOCK, LAST_CLOCK};

#[derive(Clone, Debug, PartialEq, Eq)]
pub struct History {
    pub own: u8,
    pub calls: Vec<Call>,
}

#[derive(Clone, Debug, PartialEq, Eq)]
pub struct Shop {
    pub panels: u8,
    pub histories: Vec<History>,
    /// The registers that are read at the end.
    pub read: Vec<u8>,
    /// Whether a request is heard at the end that comes first in clock order,
    /// so that it stands where the unsettled ones begin.
    pub front: bool,
}

impl Shop {
    /// A list of calls: the history, single steps until idle, a carry-out that is
    /// refused for it, and what is heard to read the panel, with steps as before.
    pub fn list(&self, history: &History) -> Vec<u8> {
        let mut list = List::new(self.panels, history.own);
        history.calls.iter().for_each(|call| list.add(call));
        until_idle(&mut list);
        let readings = self.readings(list.panel());
        if !readings.is_empty() {
            readings.iter().for_each(|request| list.add(&Call::Hear(*request)));
            until_idle(&mut list);
        }
        list.into_bytes()
    }

    pub fn lists(&self) -> Vec<Vec<u8>> {
        self.histories.iter().map(|history| self.list(history)).collect()
    }

    /// Weak requests that read, under numbers that are free; without these
    /// fewer registers are read.
    fn readings(&self, panel: &Panel) -> Vec<Request> {
        let read = |r: u8, clock| (Operation::new(READ, r, 0, 0), clock);
        let front = self.front.then(|| read(0, FIRST_CLOCK));
        let wanted = front.into_iter().chain(self.read.iter().map(|r| read(*r, LAST_CLOCK)));
        let with_number = |(number, (operation, clock))| Request {
            number,
            clock,
            operation,
            strong: false,
            context: NumberSet::EMPTY,
        };
        free_numbers(panel).zip(wanted).map(with_number).collect()
    }

    pub fn accounts(&self, board: &dyn Board) -> Vec<Account> {
        self.lists().iter().map(|list| account(board, list)).collect()
    }

    /// The same shop with some of its panels.
    pub fn only(&self, places: &[usize]) -> Shop {
        let histories = places.iter().map(|place| self.histories[*place].clone()).collect();
        Shop { histories, ..self.clone() }
    }

    pub fn calls(&self) -> usize {
        self.histories.iter().map(|history| history.calls.len()).sum()
    }
}

pub fn account(board: &dyn Board, list: &[u8]) -> Account {
    let mut answers = vec![0; calls::count(list) * ANSWER_SIZE];
    board.run(list, &mut answers);
    Account::read(list, &answers)
}

fn until_idle(list: &mut List) {
    list.add_due_steps();
    list.add(&Call::CarryOut);
}

/// The numbers of other panels that a panel does not hold, the last ones first.
fn free_numbers(panel: &Panel) -> impl Iterator<Item = Number> {
    let mut held = NumberSet::EMPTY;
    for slot in panel.committed().iter().chain(panel.tentative()) {
        held.insert(*slot as usize);
    }
    let (panels, own) = (panel.panels() as usize, panel.own());
    let free = (0..panels * EVENTS).rev().filter(move |slot| !held.contains(*slot));
    free.map(Number::of_slot).filter(move |number| number.panel.0 != own)
}
