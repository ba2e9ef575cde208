//! Seeded inputs for comparisons. The same seed gives the same input for ever.

pub mod aimed_claims;
mod aims;
pub mod habits;
pub mod inputs;
pub mod long_shift;
pub mod messages;
pub mod random;
pub mod shift;
mod shift_operations;
mod shift_requests;
pub mod shop;
