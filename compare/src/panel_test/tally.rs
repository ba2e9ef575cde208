//! Counts of what was compared panel by panel.

use std::fmt::{self, Display, Formatter};

use crate::interface::header::*;
use crate::panel_test::pair::{Outcome, Step};
use crate::replica::call::Call;
use crate::replica::refusal::{ACCEPTED, REFUSALS};

#[derive(Clone, Debug, Default)]
pub struct PanelTally {
    pub shifts: usize,
    pub calls: usize,
    pub refusals: [usize; REFUSALS],
    /// Hears and settlements by their structs.
    pub by_struct: usize,
    /// Messages that were read, places at the end, and readings refused.
    pub received: usize,
    pub ended: usize,
    pub unread: usize,
    /// Calls of all due steps, and the replies in them by mark.
    pub due: usize,
    pub replies: [usize; 4],
    /// Fresh, copies and moves.
    pub fresh: usize,
    pub copied: usize,
    pub moved: usize,
    /// How often the memory had to be as before the call.
    pub unchanged: usize,
    /// How often all was shown, with how many requests in all.
    pub shown: usize,
    pub places: usize,
    /// Statuses shown, and those among them of a request that is held, is settled,
    /// awaits a reply and is executed.
    pub statuses: usize,
    pub held: usize,
    pub settled: usize,
    pub awaited: usize,
    pub executed: usize,
}

impl PanelTally {
    pub fn count(&mut self, step: &Step, outcome: &Outcome) {
        match step {
            Step::Copy(_) => self.copied += 1,
            Step::Move(_) => self.moved += 1,
            Step::Fresh(..) => self.fresh += 1,
            Step::Call(Call::Hear(_) | Call::Settle(_)) => self.by_struct += 1,
            Step::Call(_) | Step::Receive(..) => {}
        }
        match outcome {
            Outcome::Nothing => {}
            Outcome::Fresh(refusal) => self.count_call(*refusal),
            Outcome::Answer(answer) => self.count_call(answer.refusal),
            Outcome::Receipt(receipt) => {
                self.count_receipt(receipt);
                self.count_call(receipt.reply.refusal);
            }
            Outcome::Due(due) => {
                self.due += 1;
                self.count_call(ACCEPTED);
                due.replies[..due.count as usize]
                    .iter()
                    .for_each(|reply| self.replies[reply.mark as usize] += 1);
            }
        }
    }

    pub fn count_status(&mut self, status: &Status) {
        self.statuses += 1;
        self.held += (status.refusal == ACCEPTED) as usize;
        self.settled += status.settled as usize;
        self.awaited += status.awaited as usize;
        self.executed += status.executed as usize;
    }

    fn count_call(&mut self, refusal: u8) {
        self.calls += 1;
        self.refusals[refusal as usize] += 1;
    }

    fn count_receipt(&mut self, receipt: &Receipt) {
        if receipt.taken > 0 {
            self.received += 1;
        } else if receipt.reply.refusal == ACCEPTED {
            self.ended += 1;
        } else {
            self.unread += 1;
        }
    }
}

impl Display for PanelTally {
    fn fmt(&self, out: &mut Formatter) -> fmt::Result {
        let met = (1..REFUSALS).filter(|number| self.refusals[*number] > 0);
        let refused: Vec<String> = met.map(|number| format!("{number}: {}", self.refusals[number])).collect();
        writeln!(
            out,
            "calls: {} in {} shifts; accepted {}, refused by number {}",
            self.calls,
            self.shifts,
            self.refusals[0],
            refused.join(", ")
        )?;
        writeln!(
            out,
            "hear and settle: {} by structs; from bytes {} messages read, {} at the end, {} not to be read",
            self.by_struct, self.received, self.ended, self.unread
        )?;
        let [_, weak, tentative, stable] = self.replies;
        writeln!(
            out,
            "all due steps: {} times, with replies weak {weak}, tentative {tentative}, stable {stable}",
            self.due
        )?;
        writeln!(
            out,
            "statuses: {}, of which held {}, settled {}, awaited {}, executed {}",
            self.statuses, self.held, self.settled, self.awaited, self.executed
        )?;
        write!(
            out,
            "shown: {} times with {} requests; memory as before: {} calls; panels made again {}, copied {}, \
             moved {}",
            self.shown, self.places, self.unchanged, self.fresh, self.copied, self.moved
        )
    }
}
