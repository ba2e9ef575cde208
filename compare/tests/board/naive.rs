//! Algorithm 1 with document 01's refusals and document 02's requests (b), (g)
//! and (i), as literally as it goes: lists are vectors of whole requests and every
//! value comes from a replay on a zero board. There is no undo log, no saved
//! register and no count of own requests.

use mizzencord_compare::replica::call::Call;
use mizzencord_compare::replica::calls;
use mizzencord_compare::replica::panel::{Answer, StatusAnswer};
use mizzencord_compare::replica::request::{Clock, Number, NumberSet, Operation, Request};
use mizzencord_compare::replica::wire::{parse, Message, Parsed};

use crate::build::pair;

pub struct Naive {
    panels: u8,
    own: u8,
    pub committed: Vec<Request>,
    pub tentative: Vec<Request>,
    pub executed: Vec<Request>,
    pub to_be_executed: Vec<Request>,
    pub to_be_rolled_back: Vec<Request>,
    pub causal_ctx: Vec<(u8, u8)>,
    pub awaiting: Vec<(Request, Option<u32>)>,
}

fn before(a: &Request, b: &Request) -> bool {
    let key = |x: &Request| (x.clock.0, x.number.panel.0, x.number.event.0);
    key(a) < key(b)
}

pub fn numbers_of(set: &NumberSet) -> Vec<(u8, u8)> {
    let mut numbers = Vec::new();
    for panel in 0..8u8 {
        for event in 1..=64u8 {
            if set.0[panel as usize] & (1 << (event - 1)) != 0 {
                numbers.push((panel, event));
            }
        }
    }
    numbers
}

fn set_of(numbers: &[(u8, u8)]) -> NumberSet {
    crate::build::set_of(numbers)
}

pub fn good(op: &Operation) -> bool {
    let Operation { code, r, q, amount } = *op;
    if !(1..=6).contains(&code) || r > 63 || q > 63 {
        return false;
    }
    let plain_q = code >= 5 || q == 0;
    let read_amount = code != 1 || amount == 0;
    let claim_amount = (code != 4 && code != 6) || amount != 0;
    let distinct = code != 5 || r != q;
    let claimed = q as i32 - r as i32 + 1;
    let one_to_four = code != 6 || (1..=4).contains(&claimed);
    plain_q && read_amount && claim_amount && distinct && one_to_four
}

/// The most that a register holds.
const TOP: u64 = 4_294_967_295;

pub fn run(op: &Operation, board: &mut [u64; 64]) -> u32 {
    let (r, q, v) = (op.r as usize, op.q as usize, op.amount as u64);
    let former = board[r];
    match op.code {
        1 => former as u32,
        2 => {
            board[r] = v;
            former as u32
        }
        3 => {
            board[r] = (former + v) % (1 << 32);
            board[r] as u32
        }
        4 => {
            if former == 0 {
                board[r] = v;
            }
            board[r] as u32
        }
        5 => {
            // What q has no room for goes back to r.
            let taken = if v > former { former } else { v };
            let whole = board[q] + taken;
            let back = whole.saturating_sub(TOP);
            board[r] = former - taken + back;
            board[q] = whole - back;
            (taken - back) as u32
        }
        6 => claim_together(r, q, v, board) as u32,
        _ => unreachable!(),
    }
}

fn claim_together(r: usize, q: usize, v: u64, board: &mut [u64; 64]) -> u64 {
    // Past the free ones: the lowest held, or q where all are free.
    let mut at = r;
    while board[at] == 0 && at < q {
        at += 1;
    }
    if board[at] == 0 {
        let mut left = q - r + 1;
        while left > 0 {
            left -= 1;
            board[r + left] = v;
        }
    }
    board[at]
}

/// The board after some requests in turn, and the last one's response.
pub fn replay(requests: &[Request]) -> ([u32; 64], u32) {
    let mut board = [0u64; 64];
    let mut response = 0;
    for request in requests {
        response = run(&request.operation, &mut board);
    }
    (board.map(|value| value as u32), response)
}

fn refused(refusal: u8) -> Answer {
    Answer { refusal, ..Answer::default() }
}

impl Naive {
    pub fn fresh(panels: u8, own: u8) -> (u8, Naive) {
        let good = (1..=8).contains(&panels) && own < panels;
        let (panels, own) = if good { (panels, own) } else { (1, 0) };
        let naive = Naive {
            panels,
            own,
            committed: vec![],
            tentative: vec![],
            executed: vec![],
            to_be_executed: vec![],
            to_be_rolled_back: vec![],
            causal_ctx: vec![],
            awaiting: vec![],
        };
        (if good { 0 } else { 1 }, naive)
    }

    pub fn standing_order(&self) -> Vec<Request> {
        [self.committed.clone(), self.tentative.clone()].concat()
    }

    pub fn board(&self) -> Vec<Request> {
        let mut board = self.executed.clone();
        board.extend(self.to_be_rolled_back.iter().rev());
        board
    }

    pub fn owed(&self) -> usize {
        self.to_be_rolled_back.len() + self.to_be_executed.len()
    }

    /// The last request of the own panel, settled or not.
    pub fn last_own(&self) -> Option<Request> {
        let own = self.standing_order().into_iter().filter(|x| x.number.panel.0 == self.own);
        own.max_by_key(|x| x.number.event.0)
    }

    /// What is told of a number: by going through the lists, and by one replay of the
    /// executed list up to the request.
    pub fn status(&self, number: Number) -> StatusAnswer {
        let (panel, event) = pair(number);
        if panel >= self.panels || event == 0 || event > 64 {
            return StatusAnswer { refusal: 2, ..StatusAnswer::default() };
        }
        let is_it = |x: &Request| x.number == number;
        let Some(before) = self.standing_order().iter().position(is_it) else {
            return StatusAnswer { refusal: 9, ..StatusAnswer::default() };
        };
        let executed = self.executed.iter().position(is_it);
        StatusAnswer {
            refusal: 0,
            place: before + 1,
            settled: self.committed.iter().any(is_it),
            awaited: self.awaiting.iter().any(|(x, _)| is_it(x)),
            executed: executed.is_some(),
            response: executed.map_or(0, |last| replay(&self.executed[..=last]).1),
        }
    }

    pub fn make(&mut self, operation: Operation, strong: bool, clock: Clock) -> Answer {
        if !good(&operation) {
            return refused(3);
        }
        let (event, clock) = match self.last_own() {
            None => (1, clock),
            Some(last) if last.number.event.0 == 64 => return refused(6),
            Some(last) if clock.0 < last.clock.0 => (last.number.event.0 + 1, last.clock),
            Some(last) => (last.number.event.0 + 1, clock),
        };
        let number = Number::new(self.own, event);
        let mut r = Request { number, clock, operation, strong, context: NumberSet::EMPTY };
        if strong {
            let behind: Vec<_> =
                self.tentative.iter().filter(|x| before(&r, x)).map(|x| pair(x.number)).collect();
            let context: Vec<_> = self.causal_ctx.iter().filter(|n| !behind.contains(n)).copied().collect();
            r.context = set_of(&context);
        } else {
            self.causal_ctx.push(pair(number));
        }
        self.adjust_tentative_order(r);
        self.awaiting.push((r, None));
        Answer { request: r, ..Answer::default() }
    }

    pub fn hear(&mut self, r: &Request) -> Answer {
        let (panel, event) = pair(r.number);
        if panel >= self.panels || event == 0 || event > 64 {
            return refused(2);
        }
        if panel == self.own {
            return refused(4);
        }
        if !good(&r.operation) {
            return refused(3);
        }
        let context = numbers_of(&r.context);
        let strange = |n: &(u8, u8)| *n == (panel, event) || n.0 >= self.panels;
        if !r.strong && !context.is_empty() || context.iter().any(strange) {
            return refused(21);
        }
        if let Some(held) = self.standing_order().iter().find(|x| x.number == r.number) {
            return refused(if held == r { 7 } else { 8 });
        }
        if !r.strong {
            self.causal_ctx.push((panel, event));
        }
        self.adjust_tentative_order(*r);
        Answer::default()
    }

    pub fn settle(&mut self, number: Number) -> Answer {
        let (panel, event) = pair(number);
        if panel >= self.panels || event == 0 || event > 64 {
            return refused(2);
        }
        let r = match self.standing_order().into_iter().find(|x| x.number == number) {
            None => return refused(9),
            Some(r) if !r.strong => return refused(10),
            Some(r) => r,
        };
        if self.committed.contains(&r) {
            return refused(11);
        }
        let context = numbers_of(&r.context);
        if let Some(&(panel, event)) = context.iter().find(|n| !self.causal_ctx.contains(n)) {
            return Answer { number: Number::new(panel, event), ..refused(12) };
        }
        self.causal_ctx.push((panel, event));
        self.commit(r)
    }

    fn adjust_tentative_order(&mut self, r: Request) {
        let previous = self.tentative.iter().filter(|x| before(x, &r));
        let subsequent = self.tentative.iter().filter(|x| before(&r, x));
        self.tentative = previous.chain([&r]).chain(subsequent).copied().collect();
        self.adjust_execution();
    }

    fn adjust_execution(&mut self) {
        let new_order = self.standing_order();
        let same = self.executed.iter().zip(&new_order).take_while(|(a, b)| a == b).count();
        let in_order = self.executed[..same].to_vec();
        let out_of_order: Vec<_> = self.executed.iter().filter(|x| !in_order.contains(x)).copied().collect();
        self.executed = in_order;
        self.to_be_executed = new_order.into_iter().filter(|x| !self.executed.contains(x)).collect();
        self.to_be_rolled_back.extend(out_of_order.iter().rev());
    }

    fn commit(&mut self, r: Request) -> Answer {
        let context = numbers_of(&r.context);
        let ext: Vec<_> =
            self.tentative.iter().filter(|x| context.contains(&pair(x.number))).copied().collect();
        self.tentative.retain(|x| !ext.contains(x) && *x != r);
        self.committed.extend(ext);
        self.committed.push(r);
        self.adjust_execution();
        let waiting = self.awaiting.iter().position(|(x, _)| *x == r);
        match waiting {
            Some(place) if self.executed.contains(&r) => {
                let (_, response) = self.awaiting.remove(place);
                Answer { response: response.unwrap(), mark: 3, ..Answer::default() }
            }
            _ => Answer::default(),
        }
    }

    pub fn undo(&mut self) -> Answer {
        if self.to_be_rolled_back.is_empty() {
            return refused(13);
        }
        let head = self.to_be_rolled_back.remove(0);
        Answer { number: head.number, ..Answer::default() }
    }

    pub fn carry_out(&mut self) -> Answer {
        if !self.to_be_rolled_back.is_empty() {
            return refused(14);
        }
        if self.to_be_executed.is_empty() {
            return refused(15);
        }
        let head = self.to_be_executed.remove(0);
        self.executed.push(head);
        let (_, response) = replay(&self.executed);
        let mark = self.mark(&head, response);
        Answer { number: head.number, response, mark, ..Answer::default() }
    }

    fn mark(&mut self, head: &Request, response: u32) -> u8 {
        let Some(place) = self.awaiting.iter().position(|(x, _)| x == head) else {
            return 0;
        };
        if !head.strong {
            self.awaiting.remove(place);
            1
        } else if self.tentative.contains(head) {
            self.awaiting[place].1 = Some(response);
            2
        } else {
            self.awaiting.remove(place);
            3
        }
    }

    /// A call that bytes stand for.
    fn call(&mut self, call: &Call) -> Answer {
        match call {
            Call::Make(operation, strong, clock) => self.make(*operation, *strong, *clock),
            Call::Hear(request) => self.hear(request),
            Call::Settle(number) => self.settle(*number),
            Call::Undo => self.undo(),
            Call::CarryOut => self.carry_out(),
            Call::RunDue => {
                let (undone, carried) = self.run_due();
                Answer { response: (undone + carried) as u32, ..Answer::default() }
            }
            Call::Register(_) | Call::RequestAt(_) => unreachable!("no bytes stand for it"),
        }
    }

    pub fn run_due(&mut self) -> (usize, usize) {
        let (mut undone, mut carried) = (0, 0);
        while self.undo().refusal == 0 {
            undone += 1;
        }
        while self.carry_out().refusal == 0 {
            carried += 1;
        }
        (undone, carried)
    }
}

/// The printout from the naive panel. Reading alone is shared.
pub fn printout(input: &[u8]) -> String {
    let input = if input.len() > 65536 { &input[..65536] } else { input };
    if input.len() < 2 {
        return "board refused 16\n".into();
    }
    let (refusal, mut panel) = Naive::fresh(input[0], input[1]);
    if refusal != 0 {
        return "board refused 1\n".into();
    }
    let mut text = format!("board {} {}\n", input[0], input[1]);
    let (mut at, mut line, mut undone, mut carried) = (2, 0, 0, 0);
    loop {
        line += 1;
        match parse(input, at) {
            Parsed::End => break,
            Parsed::Refused(refusal) => {
                text += &format!("{line} - - - {refusal} 0\n");
                break;
            }
            Parsed::Message(message, taken) => {
                at += taken;
                let answer = match &message {
                    Message::Request(request) => panel.hear(request),
                    Message::Settlement(number) => panel.settle(*number),
                };
                let steps = panel.run_due();
                undone += steps.0;
                carried += steps.1;
                let (p, e) = pair(message.number());
                text += &format!("{line} {} {p} {e} {} {}\n", message.kind(), answer.refusal, steps.0);
            }
        }
    }
    let (settled, unsettled) = (panel.committed.len(), panel.tentative.len());
    text += &format!("settled {settled} unsettled {unsettled} undone {undone} carried {carried}\n");
    for (r, value) in replay(&panel.standing_order()).0.iter().enumerate() {
        if *value != 0 {
            text += &format!("register {r} {value}\n");
        }
    }
    text
}

/// The answers to a list of calls in lines, from the naive panel. Reading the
/// calls alone is shared.
pub fn answers(bytes: &[u8]) -> String {
    let (_, mut panel) = match bytes {
        [] => Naive::fresh(0, 0),
        [panels] => Naive::fresh(*panels, 0),
        [panels, own, ..] => Naive::fresh(*panels, *own),
    };
    let mut text = String::new();
    for call in calls::each(bytes).map(calls::decode) {
        let answer = panel.call(&call);
        let (p, e) = pair(answer.number);
        let mut words = vec![answer.refusal as u32, answer.mark as u32, p as u32, e as u32, answer.response];
        if answer.request.number.event.0 != 0 {
            words.extend(message_bytes(&answer.request).into_iter().map(u32::from));
        }
        let words: Vec<String> = words.iter().map(u32::to_string).collect();
        text += &(words.join(" ") + "\n");
    }
    text
}

fn message_bytes(r: &Request) -> Vec<u8> {
    let (length, kind) = if r.strong { (82, 2) } else { (18, 1) };
    let mut bytes = vec![length, 0, kind, 0, r.number.panel.0, r.number.event.0];
    bytes.extend(r.clock.0.to_le_bytes());
    bytes.extend([r.operation.code, r.operation.r, r.operation.q, 0]);
    bytes.extend(r.operation.amount.to_le_bytes());
    if r.strong {
        bytes.extend(r.context.0.iter().flat_map(|word| word.to_le_bytes()));
    }
    bytes
}
