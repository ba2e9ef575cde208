//! How often the proved library may take the time of each peer: the design's
//! limits.

/// The most of both ratios, where there is one.
#[derive(Clone, Copy)]
pub struct Limits {
    pub to_rust: Option<f64>,
    pub to_c: Option<f64>,
}

const fn most(to_rust: f64, to_c: f64) -> Limits {
    Limits { to_rust: Some(to_rust), to_c: Some(to_c) }
}

pub const NONE: Limits = Limits { to_rust: None, to_c: None };
pub const HEAR: Limits = most(0.6, 1.7);
pub const SETTLE: Limits = most(0.4, 2.2);
pub const MAKE_AMONG_FEW: Limits = most(0.7, 1.8);
pub const MAKE_LAST: Limits = most(0.6, 1.8);
pub const MAKE_FIRST: Limits = most(1.1, 1.6);
pub const CARRY_OUT: Limits = most(0.8, 1.8);
pub const UNDO: Limits = most(0.5, 1.4);
pub const REFUSED: Limits = UNDO;
pub const NONE_DUE: Limits = most(0.45, 1.8);
pub const PARSE: Limits = most(0.6, 1.6);
pub const WRITE: Limits = most(1.1, 2.0);
pub const STEP_IN_A_PATTERN: Limits = most(0.9, 1.5);
pub const STEP_SHUFFLED: Limits = most(0.9, 1.6);
pub const STEP_OF_CLAIMS: Limits = most(1.0, 1.2);
pub const SHIFT_IN_ORDER: Limits = most(0.5, 2.0);
pub const SHIFT_FALLING: Limits = most(0.95, 1.6);
pub const SHIFT_SHUFFLED: Limits = most(1.0, 1.7);
pub const BUS_STEPS_ONCE: Limits = most(0.5, 2.3);
pub const BUS_STEPS_AFTER_EACH: Limits = most(0.8, 1.7);
