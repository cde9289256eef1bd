//! Compares this library with another implementation on seeded random cases, prints what occurred, and fails on a difference
//! or on an answer that should have occurred and did not.

mod calls;
mod replays;

use reference::options::Options;
use std::process::exit;

const USAGE: &str = "compare replays --program PATH [--mode spawn|batch] [--against PATH] [--seed N] [--count N] [--from CASE]
compare answers [--seed N] [--count N] [--from CASE]
compare write --to DIRECTORY [--seed N] [--count N] [--from CASE]
compare calls [--seed N] [--count N] [--from CASE]
compare runs [--seed N] [--count N] [--from CASE]
compare fields [--seed N] [--count N] [--from CASE]";

/// The random cases of one run. Each has numbers of its own, so that `--from CASE --count 1` repeats it alone.
pub struct Run {
    pub seed: u64,
    pub count: u64,
    pub from: u64,
}

impl Run {
    fn new(options: &Options) -> Result<Run, String> {
        Ok(Run { seed: options.number("seed", 1)?, count: options.number("count", 10_000)?, from: options.number("from", 0)? })
    }

    pub fn cases(&self) -> std::ops::Range<u64> {
        self.from..self.from + self.count
    }
}

fn main() {
    let arguments: Vec<String> = std::env::args().skip(1).collect();
    let (command, rest) = match arguments.split_first() {
        Some((command, rest)) => (command.as_str(), rest),
        None => stop(USAGE),
    };
    let known = ["program", "mode", "against", "seed", "count", "from", "to"];
    let options = Options::parse(rest, &known).unwrap_or_else(|fault| stop(&fault));
    let run = Run::new(&options).unwrap_or_else(|fault| stop(&fault));
    println!("seed {}, count {}, from case {}", run.seed, run.count, run.from);
    match command {
        "replays" => replays::compare(&run, &options),
        "answers" => replays::answers(&run),
        "write" => replays::write_inputs(&run, &options),
        "calls" => calls::compare_calls(&run),
        "runs" => calls::compare_runs(&run),
        "fields" => calls::compare_fields(&run),
        _ => stop(USAGE),
    }
}

/// Ends a run that cannot go on.
pub fn stop(reason: &str) -> ! {
    eprintln!("{}", reason);
    exit(2)
}

/// Ends a run without differences: required answers that did not occur make it fail. A single repeated case requires none.
pub fn close(run: &Run, missing: Vec<String>) {
    if run.count > 1 && !missing.is_empty() {
        println!("never occurred: {}", missing.join(", "));
        exit(1);
    }
    println!("no difference");
}
