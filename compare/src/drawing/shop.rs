//! A whole shop that works as Creek wants, and what one of its panels sees.

use crate::drawing::random::Random;
use crate::drawing::shift::Shift;
use crate::replica::panel::Panel;
use crate::replica::refusal::ACCEPTED;
use crate::replica::request::*;
use crate::replica::wire::Message;

/// A whole shop, each panel of it working as Creek wants: requests spread to
/// all, settlements in one order for all and none before its context. What
/// reaches each panel, and when, is left to chance.
pub struct Shop {
    random: Random,
    panels: Vec<Panel>,
    /// The requests not yet heard, by panel.
    inbound: Vec<Vec<Request>>,
    /// The settlements in their order, and how many of them each panel did.
    settlements: Vec<Number>,
    settled: Vec<usize>,
    unsettled: Vec<Number>,
    hour: u32,
}

impl Shop {
    pub fn new(seed: u64, panels: u8) -> Shop {
        Shop {
            random: Random::new(seed),
            panels: (0..panels).map(|own| Panel::fresh(panels, own).1).collect(),
            inbound: vec![Vec::new(); panels as usize],
            settlements: Vec::new(),
            settled: vec![0; panels as usize],
            unsettled: Vec::new(),
            hour: 0,
        }
    }

    pub fn panels(&self) -> &[Panel] {
        &self.panels
    }

    pub fn make(&mut self, panel: usize, operation: Operation, strong: bool) -> bool {
        self.hour += self.random.below(2) as u32;
        let answer = self.panels[panel].make(operation, strong, Clock(self.hour));
        if answer.refusal != ACCEPTED {
            return false;
        }
        for (other, inbound) in self.inbound.iter_mut().enumerate() {
            if other != panel {
                inbound.push(answer.request);
            }
        }
        if strong {
            self.unsettled.push(answer.request.number);
        }
        true
    }

    /// The time master puts the clocks of all panels back.
    pub fn put_back(&mut self, by: u32) {
        self.hour = self.hour.saturating_sub(by);
    }

    /// Puts a made strong request next in the order of settlements.
    pub fn order_settlement(&mut self) {
        if !self.unsettled.is_empty() {
            let chosen = self.random.below(self.unsettled.len());
            let number = self.unsettled.swap_remove(chosen);
            self.settlements.push(number);
        }
    }

    /// Hands a panel one message, if there is one, and says what it was and
    /// how it was refused. A settlement that is refused comes again later.
    pub fn deliver(&mut self, panel: usize) -> Option<(Message, u8)> {
        let next = self.settlements.get(self.settled[panel]).copied();
        let inbound = self.inbound[panel].len();
        match next {
            Some(number) if inbound == 0 || self.random.percent(40) => {
                let refusal = self.panels[panel].settle(number).refusal;
                self.settled[panel] += (refusal == ACCEPTED) as usize;
                Some((Message::Settlement(number), refusal))
            }
            _ if inbound == 0 => None,
            _ => {
                let chosen = self.random.below(inbound.min(6));
                let request = self.inbound[panel].remove(chosen);
                let refusal = self.panels[panel].hear(&request).refusal;
                Some((Message::Request(request), refusal))
            }
        }
    }

    pub fn run_due(&mut self, panel: usize) {
        self.panels[panel].run_due();
    }
}

/// What reaches the last panel of a shop, which makes nothing itself. So many
/// percent of the operations other than moves are about claims of neighbours.
pub fn observed(seed: u64, panels: u8, requests: usize, claims: usize) -> Vec<Message> {
    let mut random = Random::new(seed);
    let mut shop = Shop::new(random.word(), panels);
    let mut works = Shift::of_shop(Random::new(random.word()), panels, 0);
    works.aim_at_nothing();
    works.claims.make_up(claims);
    works.habits.damage = 0;
    works.habits.registers = 6;
    let watching = panels as usize - 1;
    let mut seen = Vec::new();
    let mut made = 0;
    while made < requests {
        let panel = random.below(watching);
        match random.below(10) {
            0..=2 => {
                let strong = random.percent(35);
                works.shadow = shop.panels()[panel].clone();
                made += shop.make(panel, works.operation(), strong) as usize;
            }
            3 => shop.order_settlement(),
            4..=6 => drop(shop.deliver(panel)),
            7 => shop.run_due(panel),
            _ => seen.extend(shop.deliver(watching).map(|(message, _)| message)),
        }
    }
    while let Some((message, _)) = shop.deliver(watching) {
        seen.push(message);
    }
    seen
}
