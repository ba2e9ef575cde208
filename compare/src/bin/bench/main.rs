//! Times the proved library, the handwritten Rust and the peer in C in one run,
//! side by side, and prints the tables of docs/BENCH.md; `bench [--rough] [FILE]`
//! writes the plot's data. Without the feature `proved` it times the peers alone.

mod behind;
mod bus_rows;
mod call_rows;
mod limits;
mod message_rows;
mod operations;
mod rows;
mod sampling;
mod shift;
mod shift_table;
mod step_rows;
mod tables;
mod times;
mod work;

use std::{env, fs, io};

use mizzencord_compare::progress::progress_ends;

use rows::Row;

fn all_rows() -> Vec<Row> {
    let mut rows = step_rows::due_step_rows();
    rows.extend(step_rows::full_shift_rows());
    rows.extend(message_rows::printout_rows());
    rows.extend(bus_rows::bus_rows());
    rows.extend(call_rows::call_rows());
    rows.extend(message_rows::message_rows());
    rows
}

fn main() -> io::Result<()> {
    let (words, files): (Vec<String>, Vec<String>) = env::args().skip(1).partition(|word| word == "--rough");
    sampling::take_samples(!words.is_empty());
    let shifts = shift_table::measure();
    let rows = all_rows();
    progress_ends();
    tables::print_rows(&rows);
    shift_table::print(&shifts);
    shift_table::print_growth(&shifts);
    let rows = rows.into_iter().map(|Row { work, times, limits }| (work, times, limits));
    let shifts_told = shifts.iter().map(|one| (one.name(), one.times, one.limits()));
    tables::tell_missed(&rows.chain(shifts_told).collect::<Vec<_>>());
    if let Some(file) = files.first() {
        fs::write(file, shift_table::plot_data(&shifts))?;
    }
    Ok(())
}
