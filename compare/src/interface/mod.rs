//! What is compared: the functions and types of include/mizzencord.h, this
//! crate behind them, and the libraries that have them.

pub mod board;
pub mod component;
pub mod header;
pub mod library;
pub mod library_panel;
pub mod memory;
