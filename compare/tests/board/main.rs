//! Tests of the panel, the bus messages and the printout.

mod build;
mod claims;
mod difference;
mod edges;
mod examples;
mod faults;
mod long_orders;
mod long_shifts;
mod moves;
mod naive;
mod own_clocks;
mod panels;
mod peer;
mod random_bytes;
mod random_calls;
mod refusals;
mod shop;
mod shop_findings;
mod side_by_side;
mod steps;
mod stored_claims;
mod stored_lines;
mod stored_moves;
mod wire;
mod worked;
