//! What a list of calls and its answers tell of a panel, with no look into it.
//!
//! The board is a stack: a carry-out puts the request that it names on top, an
//! undo takes it off, and all due steps at once do not say what they put there.
//! Right after a carry-out the board is a start of the standing order, and on an
//! idle panel it is the whole.

use crate::replica::call::Call;
use crate::replica::calls::{self, ANSWER_SIZE};
use crate::replica::panel::MARK_STABLE;
use crate::replica::refusal::*;
use crate::replica::request::*;
use crate::shop_test::fingerprint::{Fingerprint, State};

/// The readings of requests that are heard at the end of a list to read what
/// a panel holds. No other request of a shop has them.
pub const FIRST_CLOCK: Clock = Clock(0);
pub const LAST_CLOCK: Clock = Clock(u32::MAX);

#[derive(Default)]
pub struct Account {
    pub panels: u8,
    pub own: u8,
    pub calls: usize,
    /// How many calls were refused, by the number of the refusal; accepted is 0.
    pub refusals: [usize; REFUSALS],
    /// The accepted requests, and those of them that stand for reading alone.
    pub requests: Vec<Request>,
    pub readings: usize,
    pub settlements: Vec<Number>,
    pub changes: Vec<Change>,
    pub sights: Vec<Sight>,
    pub stable: Vec<Stable>,
    /// Registers that were read at the end, with their values.
    pub values: Vec<(u8, u32)>,
    /// The first call that is answered as no panel can: it undoes what is not on
    /// top of the board, or accepts a number that no request has.
    pub odd: Option<usize>,
}

/// An accepted request or settlement: the call's place in the list, and what
/// is accepted from then on.
#[derive(Clone, Copy)]
pub struct Change {
    pub at: usize,
    pub state: State,
}

/// The board as a start of the standing order, or as the whole of it. What all
/// due steps have put there is not known.
pub struct Sight {
    pub state: State,
    pub whole: bool,
    pub board: Vec<Option<Number>>,
}

impl Sight {
    /// Whether the order may be this one, as far as it is seen.
    pub fn agrees(&self, order: impl ExactSizeIterator<Item = Option<Number>>) -> bool {
        let fits = if self.whole { self.board.len() == order.len() } else { self.board.len() <= order.len() };
        fits && self.board.iter().zip(order).all(|(seen, number)| may_be_one(*seen, number))
    }
}

pub fn may_be_one(one: Option<Number>, other: Option<Number>) -> bool {
    one.is_none() || other.is_none() || one == other
}

pub struct Stable {
    pub number: Number,
    pub response: u32,
    /// What was accepted when it was given.
    pub state: State,
}

impl Account {
    /// Reads a list of calls with the answers to them.
    pub fn read(bytes: &[u8], answers: &[u8]) -> Account {
        let account = Account { panels: bytes[0], own: bytes[1], ..Account::default() };
        let mut reader = Reader { account, board: Vec::new(), seen: None, accepted: Fingerprint::default() };
        for (call, answer) in calls::each(bytes).zip(answers.chunks_exact(ANSWER_SIZE)) {
            reader.take(&calls::decode(call), answer);
            reader.account.calls += 1;
        }
        reader.look();
        reader.account
    }

    /// What was accepted before anything stood for reading alone.
    pub fn end(&self) -> State {
        let without_readings = self.requests.len() - self.readings;
        let end = self.changes.iter().rev().find(|change| change.state.requests <= without_readings);
        end.map_or(State::default(), |change| change.state)
    }

    /// What was seen last of an order of what is accepted then.
    pub fn sight_of(&self, state: State) -> Option<&Sight> {
        self.sights.iter().rev().find(|sight| sight.state == state)
    }

    pub fn accepted(&self, state: State) -> (&[Request], &[Number]) {
        (&self.requests[..state.requests], &self.settlements[..state.settlements])
    }
}

fn is_number(number: Number) -> bool {
    (number.panel.0 as usize) < PANELS && (1..=EVENTS).contains(&(number.event.0 as usize))
}

struct Reader {
    account: Account,
    board: Vec<Option<Number>>,
    /// Whether the board is a start of the standing order, and if so the whole.
    seen: Option<bool>,
    accepted: Fingerprint,
}

impl Reader {
    fn take(&mut self, call: &Call, bytes: &[u8]) {
        let refusal = bytes[0];
        if *call == Call::CarryOut && refusal == NOTHING_TO_DO {
            self.seen = Some(true);
        }
        self.account.refusals[(refusal as usize).min(REFUSALS - 1)] += 1;
        if refusal != ACCEPTED {
            return;
        }
        let answer = calls::answer_in(bytes).0;
        match call {
            Call::Make(..) => self.accept(answer.request),
            Call::Hear(request) => self.accept(*request),
            Call::Settle(number) => {
                self.settle(*number);
                self.reply(*number, answer.mark, answer.response);
            }
            Call::Undo => self.undo(answer.number),
            Call::CarryOut => {
                self.board.push(Some(answer.number));
                self.seen = Some(false);
                self.reply(answer.number, answer.mark, answer.response);
                self.read_register(answer.number, answer.response);
            }
            Call::RunDue => self.run_due(answer.response as usize),
            Call::Register(_) | Call::RequestAt(_) => unreachable!("no bytes stand for it"),
        }
    }

    fn accept(&mut self, request: Request) {
        self.look();
        if !is_number(request.number) {
            return self.odd();
        }
        self.account.readings += [FIRST_CLOCK, LAST_CLOCK].contains(&request.clock) as usize;
        self.account.requests.push(request);
        self.accepted.add_request(&request);
        self.change();
    }

    fn settle(&mut self, number: Number) {
        self.look();
        if !is_number(number) {
            return self.odd();
        }
        self.account.settlements.push(number);
        self.accepted.add_settlement(number);
        self.change();
    }

    fn change(&mut self) {
        self.account.changes.push(Change { at: self.account.calls, state: self.accepted.state() });
    }

    /// Keeps what is seen of the order, before the board or the order changes.
    fn look(&mut self) {
        if let Some(whole) = self.seen.take() {
            let sight = Sight { state: self.accepted.state(), whole, board: self.board.clone() };
            self.account.sights.push(sight);
        }
    }

    fn undo(&mut self, number: Number) {
        self.look();
        let top = self.board.pop();
        if !top.is_some_and(|top| may_be_one(top, Some(number))) {
            self.odd();
        }
    }

    fn odd(&mut self) {
        self.account.odd.get_or_insert(self.account.calls);
    }

    /// So many steps leave as many on the board as there are requests, which
    /// says how many of them were undos.
    fn run_due(&mut self, steps: usize) {
        let requests = self.account.requests.len();
        let undos = (steps + self.board.len()).saturating_sub(requests) / 2;
        self.board.truncate(self.board.len().saturating_sub(undos));
        self.board.resize(requests, None);
        self.seen = Some(true);
    }

    fn reply(&mut self, number: Number, mark: u8, response: u32) {
        if mark == MARK_STABLE {
            self.account.stable.push(Stable { number, response, state: self.accepted.state() });
        }
    }

    fn read_register(&mut self, number: Number, response: u32) {
        let last = self.account.requests.iter().rev().take(self.account.readings);
        let read =
            last.filter(|request| request.clock == LAST_CLOCK).find(|request| request.number == number);
        self.account.values.extend(read.map(|request| (request.operation.r, response)));
    }
}
