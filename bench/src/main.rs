//! Compares implementations of the rules with the answers by definition, and
//! times them beside each other. The proved one takes part with the feature
//! `proved`, which wants its library; `bench/run` builds all of it.
//!
//! Without an argument it does both. `bench compare` only compares, and
//! `bench time`, with the beginning of an exchange's name or without, only
//! times.

mod compare;
mod draw;
mod implementation;
mod naive;
mod plain;
mod progress;
#[cfg(feature = "proved")]
mod proved;
mod timing;

use std::env;
use std::process::ExitCode;
use std::time::Duration;

use implementation::Implementation;
use plain::calls::Plain;
use timing::{Line, Times};

/// A line whose proved calls take longer than the plain ones by this is
/// counted.
const SLOW_RATIO: f64 = 1.5;

/// The implementations; ratios are those of the last to the first.
fn implementations() -> Vec<&'static dyn Implementation> {
    vec![
        &Plain,
        #[cfg(feature = "proved")]
        &proved::Proved,
    ]
}

fn milliseconds(time: Duration) -> String {
    format!("{:.3} ms", time.as_secs_f64() * 1e3)
}

fn print_lines(implementations: &[&dyn Implementation], lines: &[Line]) {
    print!("{:<40} {:>6}", "", "rounds");
    for implementation in implementations {
        let name = implementation.name();
        print!(
            " {:>14} {:>14}",
            format!("{name} median"),
            format!("{name} least")
        );
    }
    println!(" {:>6}  result", "ratio");
    for line in lines {
        print_line(line);
    }
    let compared = lines.iter().filter_map(Line::ratio);
    let slow = compared.clone().filter(|&ratio| ratio > SLOW_RATIO).count();
    println!(
        "{slow} of {} lines above ratio {SLOW_RATIO}, {} lines of one implementation alone",
        compared.clone().count(),
        lines.len() - compared.count()
    );
}

fn print_line(line: &Line) {
    print!("{:<40} {:>6}", line.name, line.rounds);
    for times in &line.times {
        let told = |of: fn(&Times) -> Duration| match times {
            Some(times) => milliseconds(of(times)),
            None => "-".into(),
        };
        print!(" {:>14} {:>14}", told(|t| t.median), told(|t| t.least));
    }
    let ratio = match line.ratio() {
        Some(ratio) => format!("{ratio:.2}"),
        None => "-".into(),
    };
    println!(" {ratio:>6}  {}", line.result);
}

fn main() -> ExitCode {
    let arguments: Vec<String> = env::args().skip(1).collect();
    let arguments: Vec<&str> = arguments.iter().map(String::as_str).collect();
    let (compares, times) = match arguments[..] {
        [] => (true, Some("")),
        ["compare"] => (true, None),
        ["time"] => (false, Some("")),
        ["time", prefix] => (false, Some(prefix)),
        _ => {
            eprintln!("usage: bench [compare | time [name]]");
            return ExitCode::FAILURE;
        }
    };

    let implementations = implementations();
    if compares {
        // The first difference ends the run.
        let mut each = implementations.iter();
        if !each.all(|&implementation| compare::compare(implementation)) {
            return ExitCode::FAILURE;
        }
    }
    if let Some(prefix) = times {
        print_lines(&implementations, &timing::time(&implementations, prefix));
    }
    ExitCode::SUCCESS
}
