//! The operations of the shifts that are timed, by their places.

use mizzencord_compare::replica::request::*;

#[derive(Clone, Copy)]
pub enum Operations {
    OfAnyKind,
    /// Every second one a move.
    Moves,
    /// Every second one a claim of four registers.
    Claims,
}

impl Operations {
    pub fn at(self, place: usize) -> Operation {
        match self {
            Operations::OfAnyKind => of_any_kind(place),
            Operations::Moves => among_moves(place),
            Operations::Claims => among_claims(place),
        }
    }
}

/// Every fourth one a move.
fn of_any_kind(place: usize) -> Operation {
    let r = (place % 7) as u8;
    match place % 4 {
        0 => Operation::new(SET, r, 0, place as u32 + 1),
        1 => Operation::new(ADD, r, 0, 3),
        2 => Operation::new(MOVE, r, r + 1, 1),
        _ => Operation::new(CLAIM, r, 0, 9),
    }
}

/// Most moves move all that is asked, some all that r holds and some all that q
/// has room for.
fn among_moves(place: usize) -> Operation {
    let (r, turn) = ((place % 7) as u8, place / 2);
    if place % 2 == 1 {
        return Operation::new(MOVE, r, (r + 2) % 7, [5, 50, 500][turn % 3]);
    }
    match turn % 4 {
        0 => Operation::new(SET, r, 0, place as u32 + 1),
        1 => Operation::new(ADD, r, 0, 30),
        2 => Operation::new(SET, r, 0, u32::MAX - 300),
        _ => Operation::new(CLAIM, r, 0, 9),
    }
}

/// What is no claim frees a register: a claim that takes needs four of them.
fn among_claims(place: usize) -> Operation {
    const CLAIMED: usize = 60;
    let turn = place / 2;
    if place % 2 == 1 {
        let r = turn * MOST_TOGETHER % CLAIMED;
        return Operation::new(CLAIM_TOGETHER, r as u8, (r + MOST_TOGETHER - 1) as u8, 9);
    }
    let r = (turn % CLAIMED) as u8;
    match turn % 4 {
        3 => Operation::new(MOVE, r, CLAIMED as u8, 9),
        _ => Operation::new(SET, r, 0, 0),
    }
}
