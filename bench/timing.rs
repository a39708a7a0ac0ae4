//! Medians of many rounds, and comparisons that are counted.

pub const ROUNDS: usize = 41;
pub const MANY: usize = 100;

/// The value at a share of a list that is put in order.
fn at(values: &mut [f64], share: f64) -> f64 {
    values.sort_by(f64::total_cmp);
    values[((values.len() - 1) as f64 * share).round() as usize]
}

/// The first quartile, the median and the last quartile.
pub fn quartiles(mut values: Vec<f64>) -> [f64; 3] {
    [at(&mut values, 0.25), at(&mut values, 0.5), at(&mut values, 0.75)]
}

/// How many comparisons held, and how many did not.
pub struct Checks {
    pub passed: usize,
    pub failed: usize,
}

impl Checks {
    pub fn new() -> Checks {
        Checks { passed: 0, failed: 0 }
    }

    pub fn see(&mut self, what: &str, holds: bool) {
        if holds {
            self.passed += 1;
        } else {
            self.failed += 1;
            println!("FAILED: {what}");
        }
    }

    /// Prints the last line, and ends with status 0 where none failed.
    pub fn end(self) -> ! {
        println!("{} passed, {} failed", self.passed, self.failed);
        std::process::exit(i32::from(self.failed != 0));
    }
}
