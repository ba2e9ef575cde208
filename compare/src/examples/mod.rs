//! The shifts of the stored examples that are written out.

pub mod steady;
pub mod two_panels;
