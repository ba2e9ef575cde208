//! Printouts of two panels that made nothing and get the same messages in
//! different order: what they hold at the end must be the same.

use std::fmt::Write;
use std::mem::discriminant;

use crate::drawing::random::Random;
use crate::interface::board::Board;
use crate::replica::printout::MOST_BYTES;
use crate::replica::refusal::ACCEPTED;
use crate::replica::request::*;
use crate::replica::wire::append;
use crate::replica::wire::Message;
use crate::shop_test::bus::{shuffle, Drawn};
use crate::shop_test::fingerprint::accepted_same;
use crate::shop_test::replay::replay;
use crate::shop_test::standing::standing_order;
use crate::telling::message_told;

/// The panels of a shop and, for each of two of them, what it gets.
#[derive(Clone, Debug, PartialEq, Eq)]
pub struct Prints {
    pub panels: u8,
    pub inputs: [(u8, Vec<Message>); 2],
}

/// What does not hold of two printouts: that they agree, or that one of them is
/// what the definition says.
#[derive(Clone, Debug, PartialEq, Eq)]
pub enum PrintFinding {
    Pair(String),
    Definition(String),
}

impl PrintFinding {
    fn told(&self) -> &str {
        let (PrintFinding::Pair(told) | PrintFinding::Definition(told)) = self;
        told
    }
}

/// The same messages for two panels of a shop that made nothing, if there are
/// two and the messages are not too many to be printed.
pub fn draw(drawn: &Drawn, seed: u64) -> Option<Prints> {
    let mut random = Random::new(seed);
    let mut silent = drawn.silent.clone();
    shuffle(&mut silent, &mut random);
    let [one, other, ..] = silent[..] else { return None };
    let inputs = [one, other].map(|own| (own, messages(drawn, &mut random)));
    let prints = Prints { panels: drawn.shop.panels, inputs };
    (0..2).all(|which| prints.input(which).len() <= MOST_BYTES).then_some(prints)
}

/// The requests in any order, some of them twice, with the settlements between
/// them in their order; one that is refused comes again.
fn messages(drawn: &Drawn, random: &mut Random) -> Vec<Message> {
    let mut requests = drawn.made.clone();
    shuffle(&mut requests, random);
    let often = random.one_of(&[10, 40, 70]);
    let mut settlements = Settlements { drawn, heard: NumberSet::EMPTY, done: 0 };
    let mut messages = Vec::new();
    for request in &requests {
        messages.push(Message::Request(*request));
        settlements.heard.insert(request.number.slot());
        if random.percent(10) {
            messages.push(Message::Request(random.one_of(&requests[..settlements.heard_count()])));
        }
        while random.percent(often) && settlements.is_left() {
            messages.push(settlements.next());
        }
    }
    let left = drawn.settlements.len() - settlements.done;
    for _ in 0..left {
        messages.push(settlements.next());
        if random.percent(10) {
            messages.push(messages[messages.len() - 1]);
        }
    }
    messages
}

/// The settlements of a shop, as far as a panel has them.
struct Settlements<'a> {
    drawn: &'a Drawn,
    heard: NumberSet,
    done: usize,
}

impl Settlements<'_> {
    fn heard_count(&self) -> usize {
        self.heard.count_outside(&NumberSet::EMPTY)
    }

    fn is_left(&self) -> bool {
        self.done < self.drawn.settlements.len()
    }

    /// The next one, which counts as done where its request is heard with the
    /// whole context. No context names a strong request that is never settled.
    fn next(&mut self) -> Message {
        let number = self.drawn.settlements[self.done];
        let request = self.drawn.made.iter().find(|request| request.number == number);
        let context = request.expect("only a made request is settled").context;
        let strong = self.drawn.settlements[self.done..].iter();
        let mut known = self.heard;
        strong.for_each(|number| known.remove(number.slot()));
        let ready = self.heard.contains(number.slot()) && context.first_outside(&known).is_none();
        self.done += ready as usize;
        Message::Settlement(number)
    }
}

/// What a printout says of its panel at the end, and what it accepted.
struct Printed {
    requests: Vec<Request>,
    settlements: Vec<Number>,
    settled: usize,
    unsettled: usize,
    registers: [u32; REGISTERS],
}

fn printed(text: &[u8], messages: &[Message]) -> Option<Printed> {
    let text = std::str::from_utf8(text).ok()?;
    let mut lines = text.lines().skip(1);
    let mut said = Printed {
        requests: Vec::new(),
        settlements: Vec::new(),
        settled: 0,
        unsettled: 0,
        registers: [0; REGISTERS],
    };
    for message in messages {
        let refusal: u8 = lines.next()?.split(' ').nth(4)?.parse().ok()?;
        match message {
            _ if refusal != ACCEPTED => {}
            Message::Request(request) => said.requests.push(*request),
            Message::Settlement(number) => said.settlements.push(*number),
        }
    }
    let totals: Vec<&str> = lines.next()?.split(' ').collect();
    let ["settled", settled, "unsettled", unsettled, ..] = totals[..] else { return None };
    (said.settled, said.unsettled) = (settled.parse().ok()?, unsettled.parse().ok()?);
    for line in lines {
        let words: Vec<&str> = line.split(' ').collect();
        let ["register", r, value] = words[..] else { return None };
        *said.registers.get_mut(r.parse::<usize>().ok()?)? = value.parse().ok()?;
    }
    Some(said)
}

impl Prints {
    pub fn input(&self, which: usize) -> Vec<u8> {
        let (own, messages) = &self.inputs[which];
        let mut input = vec![self.panels, *own];
        messages.iter().for_each(|message| append(&mut input, message));
        input
    }

    /// The two printouts of a board, by way of lent bytes.
    pub fn texts(&self, board: &dyn Board, out: &mut [u8]) -> [Vec<u8>; 2] {
        [0, 1].map(|which| {
            let length = board.print(&self.input(which), out);
            out[..length].to_vec()
        })
    }

    /// What does not hold of the two printouts, and whether the two panels
    /// accepted the same.
    pub fn found(&self, texts: &[Vec<u8>; 2]) -> (Option<PrintFinding>, bool) {
        let mut said = Vec::new();
        for (text, (own, messages)) in texts.iter().zip(&self.inputs) {
            let Some(one) = printed(text, messages) else {
                let told = format!("the printout of panel {own} has other lines");
                return (Some(PrintFinding::Definition(told)), false);
            };
            said.push(one);
        }
        let [one, other] = [&said[0], &said[1]];
        let same = accepted_same((&one.requests, &one.settlements), (&other.requests, &other.settlements));
        let pair = if same { one.differs_from(other) } else { None };
        let defined = || said.iter().find_map(Printed::differs_from_the_definition);
        (pair.map(PrintFinding::Pair).or_else(|| defined().map(PrintFinding::Definition)), same)
    }

    /// Fewer messages, of which the same is still found.
    pub fn shrunk(&self, board: &dyn Board, out: &mut [u8]) -> Prints {
        let mut kind = |prints: &Prints| {
            let found = prints.found(&prints.texts(board, out)).0;
            found.map(|found| discriminant(&found))
        };
        let first = kind(self);
        let mut small = self.clone();
        loop {
            let smaller = small.with_one_number_less().into_iter().chain(small.with_one_message_less());
            match smaller.into_iter().find(|smaller| kind(smaller) == first) {
                Some(smaller) => small = smaller,
                None => return small,
            }
        }
    }

    fn with_one_number_less(&self) -> Vec<Prints> {
        let mut numbers: Vec<Number> = self.inputs[0].1.iter().map(Message::number).collect();
        numbers.sort();
        numbers.dedup();
        let without = |dropped: Number| {
            let mut fewer = self.clone();
            for (_, messages) in &mut fewer.inputs {
                messages.retain(|message| message.number() != dropped);
                messages.iter_mut().for_each(|message| forget(message, dropped));
            }
            fewer
        };
        numbers.into_iter().map(without).collect()
    }

    fn with_one_message_less(&self) -> Vec<Prints> {
        let mut all = Vec::new();
        for which in 0..2 {
            for place in 0..self.inputs[which].1.len() {
                let mut fewer = self.clone();
                fewer.inputs[which].1.remove(place);
                all.push(fewer);
            }
        }
        all
    }

    pub fn show(&self, name: &str, finding: &PrintFinding) -> String {
        let told = finding.told();
        let mut text = format!("printouts of two panels of {}, {name}: {told}\n", self.panels);
        for (own, messages) in &self.inputs {
            let _ = writeln!(text, "panel {own}");
            for message in messages {
                let _ = writeln!(text, "  {}", message_told(message));
            }
        }
        text
    }
}

/// Takes a number out of the context of a request.
fn forget(message: &mut Message, number: Number) {
    if let Message::Request(request) = message {
        request.context.remove(number.slot());
    }
}

impl Printed {
    fn differs_from_the_definition(&self) -> Option<String> {
        let standing = standing_order(&self.requests, &self.settlements);
        let defined = Printed {
            requests: Vec::new(),
            settlements: Vec::new(),
            settled: standing.settled.len(),
            unsettled: standing.unsettled.len(),
            registers: replay(standing.requests()).registers,
        };
        self.differs_from(&defined).map(|told| format!("printed, and by the definition: {told}"))
    }

    fn differs_from(&self, other: &Printed) -> Option<String> {
        let lengths = [self, other].map(|said| (said.settled, said.unsettled));
        if lengths[0] != lengths[1] {
            let [(settled, unsettled), (other_settled, other_unsettled)] = lengths;
            return Some(format!(
                "settled {settled} unsettled {unsettled}, and settled {other_settled} unsettled {other_unsettled}"
            ));
        }
        let r = (0..REGISTERS).find(|r| self.registers[*r] != other.registers[*r])?;
        Some(format!("register {r} holds {}, and {}", self.registers[r], other.registers[r]))
    }
}
