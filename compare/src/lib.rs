//! A second implementation of the bake board replica of document 01, after
//! Algorithms 1 and 2 of Creek. It shares no code with the first and is there
//! to be compared with it: one call, one message or one printout at a time.

pub mod byte_test;
pub mod counting;
pub mod drawing;
pub mod examples;
pub mod interface;
pub mod panel_test;
pub mod progress;
pub mod replica;
pub mod shop_test;
pub mod telling;
