//! What a shift is like, drawn at its start, so that one shift is full of equal
//! clocks and another of waiting contexts.

use crate::drawing::random::Random;
use crate::replica::request::REGISTERS;

/// How the clocks of a shift are drawn.
#[derive(Clone, Copy, Debug, PartialEq, Eq)]
pub enum Clocks {
    /// A handful of readings, so that most requests tie.
    Tied,
    /// Rising with the shift, with some coming late.
    Rising,
    Anywhere,
    /// The highest readings there are.
    Top,
}

/// What a shift is like. Fields that are not lists of choices are percentages.
pub(super) struct Habits {
    pub(super) clocks: Clocks,
    pub(super) registers: usize,
    /// Calls that are steps, and steps that are the due one.
    pub(super) steps: usize,
    pub(super) due: usize,
    pub(super) strong: usize,
    pub(super) makes: usize,
    pub(super) settlements: usize,
    /// Arguments with something wrong, and contexts that name more than is
    /// known.
    pub(super) damage: usize,
    pub(super) waiting: usize,
    /// New numbers that skip events.
    pub(super) skips: usize,
    /// Own clocks that are put back behind the last own reading. It is drawn
    /// from a stream of its own, so that lists without makes stay as they are.
    pub(super) back: usize,
    /// Moves that are aimed at a limit. They are drawn from a stream of their
    /// own and change the registers and the amount of these moves alone; the
    /// stored inputs have none.
    pub(super) aimed: usize,
}

impl Habits {
    pub(super) fn draw(random: &mut Random, aims: &mut Random) -> Habits {
        Habits {
            clocks: random.one_of(&[
                Clocks::Tied,
                Clocks::Tied,
                Clocks::Rising,
                Clocks::Rising,
                Clocks::Anywhere,
                Clocks::Top,
            ]),
            registers: random.one_of(&[2, 3, 5, REGISTERS]),
            steps: random.one_of(&[0, 20, 45, 45, 60, 75]),
            due: random.one_of(&[40, 70, 90, 97]),
            strong: random.one_of(&[5, 30, 50, 80]),
            makes: random.one_of(&[0, 20, 40, 60]),
            settlements: random.one_of(&[5, 25, 45]),
            damage: random.one_of(&[0, 3, 10, 30]),
            waiting: random.one_of(&[0, 10, 40]),
            skips: random.one_of(&[0, 10, 100]),
            back: random.fork().one_of(&[0, 10, 35, 60, 90]),
            aimed: aims.one_of(&[0, 20, 50, 80]),
        }
    }
}
