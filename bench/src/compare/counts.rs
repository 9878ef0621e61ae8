//! What was compared, and what was passed over.

use std::collections::BTreeMap;

/// After so many disagreements no more are told.
const MOST_TOLD: usize = 5;

/// How often an answer was compared and how often it agreed, and how often
/// the call was passed over because the implementation does not offer it.
#[derive(Clone, Copy, Default)]
struct Count {
    compared: usize,
    agreed: usize,
    passed_over: usize,
}

/// The counts by what was compared.
#[derive(Default)]
pub struct Counts {
    lines: BTreeMap<String, Count>,
    disagreed: usize,
}

impl Counts {
    pub fn note(&mut self, what: impl Into<String>, agrees: bool, tell: impl FnOnce() -> String) {
        let what = what.into();
        if !agrees {
            self.disagreed += 1;
            if self.disagreed <= MOST_TOLD {
                eprintln!("\n{what}: {}", tell());
            }
        }
        let count = self.lines.entry(what).or_default();
        count.compared += 1;
        count.agreed += usize::from(agrees);
    }

    pub fn pass_over(&mut self, what: impl Into<String>) {
        self.lines.entry(what.into()).or_default().passed_over += 1;
    }

    /// Whether everything agreed up to now.
    pub fn agree(&self) -> bool {
        self.disagreed == 0
    }

    pub fn print(&self, name: &str) {
        let head = [name, "compared", "agreed", "passed over"];
        println!(
            "{:<46} {:>9} {:>9} {:>11}",
            head[0], head[1], head[2], head[3]
        );
        let mut total = Count::default();
        for (what, count) in &self.lines {
            print_line(what, count);
            total.compared += count.compared;
            total.agreed += count.agreed;
            total.passed_over += count.passed_over;
        }
        print_line("all", &total);
        println!();
    }
}

fn print_line(what: &str, count: &Count) {
    println!(
        "{what:<46} {:>9} {:>9} {:>11}",
        count.compared, count.agreed, count.passed_over
    );
}
