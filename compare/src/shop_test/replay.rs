//! A replay: requests executed in turn on a zero board. It is written from the
//! table of document 01 and requests (g) and (i) of document 02, with numbers
//! wide enough for any sum, and shares nothing with the panel.

use crate::replica::request::{Operation, Request, REGISTERS};

/// What the requests respond, in their order, and what the registers hold then.
pub struct Replay {
    pub responses: Vec<u32>,
    pub registers: [u32; REGISTERS],
}

const TOP: u64 = 4_294_967_295;

pub fn replay<'a>(requests: impl IntoIterator<Item = &'a Request>) -> Replay {
    let mut board = [0; REGISTERS];
    let responses =
        requests.into_iter().map(|request| respond(&request.operation, &mut board) as u32).collect();
    Replay { responses, registers: board.map(|value| value as u32) }
}

/// The effect and the response of one good operation. A bad one, which no panel
/// may accept, responds 0.
fn respond(operation: &Operation, board: &mut [u64; REGISTERS]) -> u64 {
    let (r, q, v) = (operation.r as usize, operation.q as usize, operation.amount as u64);
    if r.max(q) >= REGISTERS {
        return 0;
    }
    let former = board[r];
    match operation.code {
        1 => former,
        2 => {
            board[r] = v;
            former
        }
        3 => {
            board[r] = (former + v) % (TOP + 1);
            board[r]
        }
        4 => claim(&mut board[r..=r], v),
        5 => {
            let moved = v.min(former).min(TOP - board[q]);
            board[r] -= moved;
            board[q] += moved;
            moved
        }
        6 if r <= q => claim(&mut board[r..=q], v),
        _ => 0,
    }
}

/// A claim of neighbours, of which a plain claim has one.
fn claim(claimed: &mut [u64], v: u64) -> u64 {
    let held = claimed.iter().copied().find(|value| *value > 0);
    if held.is_none() {
        claimed.fill(v);
    }
    held.unwrap_or(v)
}
