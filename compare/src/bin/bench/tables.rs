//! Times, ratios and limits as cells of a table, and which limits are missed.

use crate::limits::Limits;
use crate::rows::Row;
use crate::times::{told, Times};

/// The times of the three sides.
pub fn time_cells(times: &Times) -> String {
    let proved = times.proved.map_or("–".into(), told);
    format!("{proved} | {} | {}", told(times.rust), told(times.c))
}

fn is_missed(ratio: Option<f64>, limit: Option<f64>) -> bool {
    ratio.zip(limit).is_some_and(|(ratio, limit)| ratio > limit)
}

/// A ratio and its limit; one that is above it is bold.
fn cells(ratio: Option<f64>, limit: Option<f64>) -> String {
    let told = match ratio {
        None => "–".into(),
        Some(ratio) if is_missed(Some(ratio), limit) => format!("**{ratio:.2}**"),
        Some(ratio) => format!("{ratio:.2}"),
    };
    format!("{told} | {}", limit.map_or(String::new(), |limit| limit.to_string()))
}

/// Both ratios, each with its limit.
pub fn ratio_cells(times: &Times, limits: Limits) -> String {
    format!("{} | {}", cells(times.to_rust(), limits.to_rust), cells(times.to_c(), limits.to_c))
}

pub fn print_rows(rows: &[Row]) {
    println!("| work | proved | Rust | C | to Rust | at most | to C | at most |\n|---|---|---|---|---|---|---|---|");
    for Row { work, times, limits } in rows {
        println!("| {work} | {} | {} |", time_cells(times), ratio_cells(times, *limits));
    }
}

/// How many limits are missed, with a line for each on standard error.
pub fn tell_missed(all: &[(String, Times, Limits)]) {
    let mut missed = 0;
    for (work, times, limits) in all {
        for (peer, ratio, limit) in
            [("Rust", times.to_rust(), limits.to_rust), ("C", times.to_c(), limits.to_c)]
        {
            if let (true, Some(ratio), Some(limit)) = (is_missed(ratio, limit), ratio, limit) {
                missed += 1;
                eprintln!("above its limit against {peer}: {work}, {ratio:.2} where {limit} is the most");
            }
        }
    }
    match all.first() {
        Some((_, times, _)) if times.proved.is_none() => {
            eprintln!("the proved library is not linked: no ratio")
        }
        _ => eprintln!("limits missed: {missed}"),
    }
}
