//! Moves that are aimed at a limit: of all that a register holds, or to its top.

/// What a move is aimed at.
#[derive(Clone, Copy)]
pub(super) enum Aim {
    AllHeld,
    OneMoreThanHeld,
    FarMoreThanHeld,
    ToTheTop,
    OneShortOfTheTop,
    OneMoreThanTheRoom,
    Nothing,
    IntoAFullOne,
    FromAnEmptyOne,
}

impl Aim {
    /// Those at the top come more often, since few registers suit them.
    pub(super) const DRAWN: [Aim; 15] = [
        Aim::AllHeld,
        Aim::OneMoreThanHeld,
        Aim::FarMoreThanHeld,
        Aim::ToTheTop,
        Aim::ToTheTop,
        Aim::ToTheTop,
        Aim::OneShortOfTheTop,
        Aim::OneShortOfTheTop,
        Aim::OneShortOfTheTop,
        Aim::OneMoreThanTheRoom,
        Aim::OneMoreThanTheRoom,
        Aim::OneMoreThanTheRoom,
        Aim::Nothing,
        Aim::IntoAFullOne,
        Aim::FromAnEmptyOne,
    ];

    /// The amount to ask for, unless what r holds and the room in q do not suit
    /// the aim.
    pub(super) fn amount(self, held: u32, room: u32, any: u32) -> Option<u32> {
        match self {
            Aim::AllHeld if 0 < held && held <= room => Some(held),
            Aim::OneMoreThanHeld if 0 < held && held <= room => held.checked_add(1),
            Aim::FarMoreThanHeld if 0 < held && held <= room => Some(held.saturating_add(any)),
            Aim::ToTheTop if 0 < room && room <= held => Some(room),
            Aim::OneShortOfTheTop if 1 < room && room <= held => Some(room - 1),
            Aim::OneMoreThanTheRoom if 0 < room && room < held => Some(room + 1),
            Aim::Nothing => Some(0),
            Aim::IntoAFullOne if room == 0 && held > 0 => Some(any.max(1)),
            Aim::FromAnEmptyOne if room > 0 && held == 0 => Some(any.max(1)),
            _ => None,
        }
    }
}
