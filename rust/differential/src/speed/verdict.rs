//! The marks that are set for the speed, and whether they are met.

/// The least of some numbers.
pub fn least(numbers: &[f64]) -> f64 {
    numbers.iter().copied().fold(f64::INFINITY, f64::min)
}

/// The largest of some numbers.
pub fn most(numbers: &[f64]) -> f64 {
    numbers.iter().copied().fold(f64::NEG_INFINITY, f64::max)
}

/// The geometric mean of some ratios.
pub fn mean(ratios: &[f64]) -> f64 {
    let logs: f64 = ratios.iter().map(|ratio| ratio.ln()).sum();
    (logs / ratios.len() as f64).exp()
}

/// A number that was measured, and what it should be.
pub struct Mark {
    what: String,
    number: f64,
    wanted: Wanted,
}

enum Wanted {
    AtLeast(f64),
    AtMost(f64),
}

impl Mark {
    pub fn at_least(what: impl Into<String>, number: f64, wanted: f64) -> Self {
        Mark {
            what: what.into(),
            number,
            wanted: Wanted::AtLeast(wanted),
        }
    }

    pub fn at_most(what: impl Into<String>, number: f64, wanted: f64) -> Self {
        Mark {
            what: what.into(),
            number,
            wanted: Wanted::AtMost(wanted),
        }
    }

    /// Whether it is met, with the words for what was wanted.
    fn verdict(&self) -> (bool, String) {
        match self.wanted {
            Wanted::AtLeast(wanted) => (self.number >= wanted, format!("at least {wanted}")),
            Wanted::AtMost(wanted) => (self.number <= wanted, format!("at most {wanted}")),
        }
    }
}

/// Prints a line for each mark.
pub fn print(marks: &[Mark]) {
    if marks.is_empty() {
        return;
    }
    say!("\nmarks");
    for mark in marks {
        let (met, wanted) = mark.verdict();
        let word = if met { "met" } else { "missed" };
        let number = format!("{:.2}", mark.number);
        let number = number.trim_end_matches(".00");
        say!("{}: {number}, {wanted}: mark {word}", mark.what);
    }
}

#[cfg(test)]
mod tests {
    use super::*;

    #[test]
    fn the_mean_of_ratios_is_geometric() {
        assert!((mean(&[2.0, 8.0]) - 4.0).abs() < 1e-12);
        assert_eq!(least(&[3.0, 2.0, 8.0]), 2.0);
    }
}
