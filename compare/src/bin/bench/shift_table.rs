//! The table of shifts by their sizes, how their times grow, and the plot's data.

use crate::limits::{self, Limits};
use crate::rows::work_of;
use crate::sampling::time_of;
use crate::shift::{Order, Shift};
use crate::tables::{ratio_cells, time_cells};
use crate::times::Times;

/// The requests of a shift, one in eight of them the panel's own.
const SIZES: [usize; 4] = [64, 128, 256, 512];
const LEAST: usize = SIZES[0];
const MOST: usize = SIZES[SIZES.len() - 1];

const ORDERS: [Order; 3] = [Order::Rising, Order::Falling, Order::Shuffled(0)];

pub struct Measured {
    shift: Shift,
    steps: f64,
    pub times: Times,
}

impl Measured {
    pub fn limits(&self) -> Limits {
        match self.shift.order {
            Order::Rising => limits::SHIFT_IN_ORDER,
            Order::Falling => limits::SHIFT_FALLING,
            Order::Shuffled(_) => limits::SHIFT_SHUFFLED,
        }
    }

    pub fn name(&self) -> String {
        format!("a shift of {} requests, {}", self.shift.requests(), self.shift.name())
    }

    fn a_request(&self) -> Times {
        self.times.over(self.shift.requests() as f64)
    }
}

/// Every kind of shift in every size, kind by kind.
pub fn measure() -> Vec<Measured> {
    let mut all = Vec::new();
    for settlements in [false, true] {
        for order in ORDERS {
            for requests in SIZES {
                let shift = Shift::of(requests, order, settlements);
                let times = time_of(&format!("{requests} requests {}", shift.name()), &work_of(&shift));
                all.push(Measured { shift, steps: shift.steps(), times });
            }
        }
    }
    all
}

fn find(all: &[Measured], requests: usize, order: Order, settlements: bool) -> &Measured {
    let found = all.iter().find(|one| {
        (one.shift.requests(), one.shift.order, one.shift.settlements) == (requests, order, settlements)
    });
    found.expect("every shift is measured")
}

pub fn print(all: &[Measured]) {
    println!(
        "\n| shift, a request | requests | steps | proved | Rust | C | to Rust | at most | to C | at most |"
    );
    println!("|---|---|---|---|---|---|---|---|---|---|");
    for one in all {
        println!(
            "| {} | {} | {:.0} | {} | {} |",
            one.shift.name(),
            one.shift.requests(),
            one.steps,
            time_cells(&one.a_request()),
            ratio_cells(&one.times, one.limits())
        );
    }
}

pub fn print_growth(all: &[Measured]) {
    println!("\n| shift | steps grow as | proved | Rust | C |\n|---|---|---|---|---|");
    let power =
        |few: f64, many: f64| format!("n^{:.2}", (many / few).ln() / (MOST as f64 / LEAST as f64).ln());
    for few in all.iter().filter(|one| one.shift.requests() == LEAST) {
        let many = find(all, MOST, few.shift.order, few.shift.settlements);
        let proved = few.times.proved.zip(many.times.proved);
        println!(
            "| {} | {} | {} | {} | {} |",
            few.shift.name(),
            power(few.steps, many.steps),
            proved.map_or("–".into(), |(few, many)| power(few, many)),
            power(few.times.rust, many.times.rust),
            power(few.times.c, many.times.c)
        );
    }
}

/// A time in the plot's data, where `?` stands for one that is missing.
fn datum(seconds: Option<f64>, unit: f64) -> String {
    seconds.map_or("?".into(), |seconds| format!("{:.4}", seconds / unit))
}

fn data_of(times: &Times, unit: f64) -> String {
    [times.proved, Some(times.rust), Some(times.c)].map(|seconds| datum(seconds, unit)).join(" ")
}

/// A block for each kind of shift, and one for a due step by the requests of the
/// shifts that it is worked out from.
pub fn plot_data(all: &[Measured]) -> String {
    let mut text = String::from("# requests, microseconds a request: proved, Rust, C\n");
    for (place, one) in all.iter().enumerate() {
        if place % SIZES.len() == 0 {
            text += &format!("{}# {}\n", if place == 0 { "" } else { "\n\n" }, one.shift.name());
        }
        text += &format!("{} {}\n", one.shift.requests(), data_of(&one.a_request(), 1e-6));
    }
    text +=
        "\n\n# a due step in a pattern: requests, nanoseconds of proved, Rust and C, ratios to Rust and C\n";
    for requests in SIZES {
        let [falling, rising] =
            [Order::Falling, Order::Rising].map(|order| find(all, requests, order, false));
        let step = falling.times.less(rising.times).over(falling.steps - rising.steps);
        let ratios = [step.to_rust(), step.to_c()].map(|ratio| datum(ratio, 1.0)).join(" ");
        text += &format!("{requests} {} {ratios}\n", data_of(&step, 1e-9));
    }
    text
}
