//! The implementation, after document 01: a panel, bus messages and the printout.

pub mod call;
pub mod calls;
pub mod panel;
pub mod printout;
pub mod refusal;
pub mod request;
pub mod wire;
