//! What was compared over bytes so far, and what that comes to in words.

use mizzencord_compare::byte_test::difference::{Case, Function, Outcome};
use mizzencord_compare::counting::changes::{LongChanges, LONG};
use mizzencord_compare::counting::claims::ClaimOutcomes;
use mizzencord_compare::counting::moves::MoveLimits;
use mizzencord_compare::counting::Counting;
use mizzencord_compare::replica::calls::{self, ANSWER_SIZE};
use mizzencord_compare::replica::refusal::{ACCEPTED, BAD_SHOP, NO_ROOM, REFUSALS};

#[derive(Default)]
pub struct Counts {
    pub calls: usize,
    pub printouts: usize,
    lists: usize,
    /// Lists of a bad shop, and lists without room for their answers.
    bad_shops: usize,
    without_room: usize,
    refusals: [usize; REFUSALS],
    raised: usize,
    changes: LongChanges,
    moves: MoveLimits,
    claims: ClaimOutcomes,
    printed: usize,
    readings: Tally,
    writings: Tally,
}

#[derive(Default)]
struct Tally {
    accepted: usize,
    ended: usize,
    refused: [usize; REFUSALS],
}

impl Tally {
    fn count(&mut self, outcome: &Outcome) {
        match (outcome.refusal, outcome.result) {
            (ACCEPTED, 0) => self.ended += 1,
            (ACCEPTED, _) => self.accepted += 1,
            (refusal, _) => self.refused[refusal as usize] += 1,
        }
    }

    fn total(&self) -> usize {
        self.accepted + self.ended + self.refused.iter().sum::<usize>()
    }
}

impl Counts {
    pub fn count(&mut self, case: &Case, outcome: &Outcome) {
        match case.function {
            Function::Run => self.count_list(case, outcome),
            Function::Print => self.count_printout(case, outcome),
            Function::Read => self.readings.count(outcome),
            Function::Write => self.writings.count(outcome),
        }
    }

    fn count_list(&mut self, case: &Case, outcome: &Outcome) {
        self.lists += 1;
        self.bad_shops += (outcome.refusal == BAD_SHOP) as usize;
        self.without_room += (outcome.refusal == NO_ROOM) as usize;
        self.calls += outcome.result;
        let answers = outcome.out.chunks_exact(ANSWER_SIZE).take(outcome.result);
        for (call, answer) in calls::each(&case.bytes).zip(answers) {
            self.refusals[answer[0] as usize] += 1;
            self.raised += calls::is_raised(call, answer) as usize;
        }
        if outcome.result > 0 {
            self.changes.count_calls(&case.bytes);
            self.moves.count_calls(&case.bytes);
            self.claims.count_calls(&case.bytes);
        }
    }

    fn count_printout(&mut self, case: &Case, outcome: &Outcome) {
        self.printouts += 1;
        self.printed += outcome.result;
        if outcome.result > 0 {
            self.changes.count_messages(&case.bytes);
            self.moves.count_messages(&case.bytes);
            self.claims.count_messages(&case.bytes);
        }
    }

    pub fn tell(&self) {
        println!(
            "calls: {} in {} lists, {} of a bad shop and {} without room; {}",
            self.calls,
            self.lists,
            self.bad_shops,
            self.without_room,
            by_number(self.refusals[0], &self.refusals)
        );
        println!("requests made whose clock was raised: {}", self.raised);
        self.tell_steps();
        println!("printouts: {} with {} bytes", self.printouts, self.printed);
        for (name, tally) in [("read", &self.readings), ("written", &self.writings)] {
            println!(
                "messages {name}: {}; at the end {}; {}",
                tally.total(),
                tally.ended,
                by_number(tally.accepted, &tally.refused)
            );
        }
    }

    fn tell_steps(&self) {
        let LongChanges { front, middle, end } = self.changes;
        println!(
            "changes of orders with {LONG} or more executed: \
             at the front {front}, in the middle {middle}, near the end {end}"
        );
        let MoveLimits { asked, held, room, at_the_top } = self.moves;
        println!(
            "moves carried out: limited by the amount asked {asked}, by what r held {held}, \
             by the room in q {room}; q at the top afterwards {at_the_top}"
        );
        let ClaimOutcomes { took, held, undone } = self.claims;
        println!(
            "claims of neighbours carried out: took all, by how many, {}; found one held, by the place of \
             the lowest, {}; undone after they took {undone}",
            from_1(&took),
            from_1(&held)
        );
    }
}

/// Counts that belong to the numbers from 1 on.
fn from_1(counts: &[usize]) -> String {
    let counts: Vec<String> = (1..).zip(counts).map(|(number, count)| format!("{number}: {count}")).collect();
    counts.join(", ")
}

fn by_number(accepted: usize, refusals: &[usize; REFUSALS]) -> String {
    let numbers = refusals.iter().enumerate().skip(1).filter(|(_, count)| **count > 0);
    let refused: Vec<String> = numbers.map(|(number, count)| format!("{number}: {count}")).collect();
    format!("accepted {accepted}, refused by number {}", refused.join(", "))
}
