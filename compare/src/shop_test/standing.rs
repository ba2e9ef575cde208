//! The standing order as request (j) of document 02 wants it: defined from the
//! requests and the settlements alone. No panel is looked at.

use crate::replica::request::*;

#[derive(Clone, Debug, Default, PartialEq, Eq)]
pub struct Standing {
    pub settled: Vec<Request>,
    pub unsettled: Vec<Request>,
}

impl Standing {
    /// The settled and then the unsettled requests.
    pub fn requests(&self) -> impl Iterator<Item = &Request> {
        self.settled.iter().chain(&self.unsettled)
    }

    pub fn numbers(&self) -> Vec<Number> {
        self.requests().map(|request| request.number).collect()
    }
}

/// The order in which accepted requests stand after accepted settlements. What
/// each settlement brings stands behind what earlier ones brought and before the
/// unsettled: its context in clock order, and then the request itself. A request
/// is brought by the first settlement that is its own or has it in the context.
pub fn standing_order(requests: &[Request], settlements: &[Number]) -> Standing {
    let with_number = |number: &Number| requests.iter().find(|request| request.number == *number);
    let bringers: Vec<&Request> = settlements.iter().filter_map(with_number).collect();
    let mut settled = requests.to_vec();
    settled.sort_by_cached_key(|request| place(request, &bringers));
    let brought = settled.iter().filter(|request| bringer(request, &bringers).is_some()).count();
    let unsettled = settled.split_off(brought);
    Standing { settled, unsettled }
}

type Place = (usize, bool, Clock, PanelNo, EventNo);

/// What requests are sorted by.
fn place(request: &Request, bringers: &[&Request]) -> Place {
    let Number { panel, event } = request.number;
    let (bringer, itself) = match bringer(request, bringers) {
        Some(at) => (at, bringers[at].number == request.number),
        None => (bringers.len(), false),
    };
    (bringer, itself, request.clock, panel, event)
}

fn bringer(request: &Request, bringers: &[&Request]) -> Option<usize> {
    let slot = request.number.slot();
    bringers.iter().position(|by| by.number == request.number || by.context.contains(slot))
}
