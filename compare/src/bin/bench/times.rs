//! What a piece of work takes on each side.

/// Seconds of one run: of the proved library, where it is linked, of the
/// handwritten Rust and of the peer in C.
#[derive(Clone, Copy)]
pub struct Times {
    pub proved: Option<f64>,
    pub rust: f64,
    pub c: f64,
}

impl Times {
    pub fn to_rust(self) -> Option<f64> {
        self.proved.map(|proved| proved / self.rust)
    }

    pub fn to_c(self) -> Option<f64> {
        self.proved.map(|proved| proved / self.c)
    }

    /// What the times of several places come to, side by side.
    pub fn of_all(all: &[Times], come_to: impl Fn(&[f64]) -> f64) -> Times {
        let proved: Option<Vec<f64>> = all.iter().map(|times| times.proved).collect();
        let rust: Vec<f64> = all.iter().map(|times| times.rust).collect();
        let c: Vec<f64> = all.iter().map(|times| times.c).collect();
        Times { proved: proved.map(|proved| come_to(&proved)), rust: come_to(&rust), c: come_to(&c) }
    }

    fn each(&self, change: impl Fn(f64) -> f64) -> Times {
        Times { proved: self.proved.map(&change), rust: change(self.rust), c: change(self.c) }
    }

    pub fn over(&self, count: f64) -> Times {
        self.each(|seconds| seconds / count)
    }

    pub fn less(&self, other: Times) -> Times {
        let proved = self.proved.zip(other.proved).map(|(one, other)| one - other);
        Times { proved, rust: self.rust - other.rust, c: self.c - other.c }
    }
}

/// Seconds in the unit that suits them.
pub fn told(seconds: f64) -> String {
    match seconds {
        s if s < 1e-6 => format!("{:.1} ns", s * 1e9),
        s if s < 1e-3 => format!("{:.2} µs", s * 1e6),
        s => format!("{:.2} ms", s * 1e3),
    }
}
