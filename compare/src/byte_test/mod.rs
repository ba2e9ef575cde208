//! The comparison over bytes: cases, and the least part of one that differs.

pub mod cases;
pub mod difference;
pub mod fields;
