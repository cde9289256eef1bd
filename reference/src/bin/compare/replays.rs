//! Replays beside each other: a program and this library, or two programs.

use crate::{close, stop, Run};
use reference::boundary::{Batched, Reference, Replayer, Spawned};
use reference::generate;
use reference::options::Options;
use reference::random::Random;
use reference::tally::Tally;
use std::process::exit;

/// A program's replay beside this library's, or beside another program's.
pub fn compare(run: &Run, options: &Options) {
    let mode = options.text("mode").unwrap_or("spawn");
    let path = options.text("program").unwrap_or_else(|| stop("--program is needed"));
    let mut left: Box<dyn Replayer> = match options.text("against") {
        Some(against) => replayer(against, mode),
        None => Box::new(Reference),
    };
    let mut right = replayer(path, mode);
    println!("{} beside {}", left.name(), right.name());
    let mut tally = Tally::default();
    for case in run.cases() {
        let input = generate::input(&Random::for_case(run.seed, case));
        let expected = output(&mut *left, &input);
        if output(&mut *right, &input) != expected {
            report(&mut *left, &mut *right, case, input);
        }
        tally.add(&input, &expected);
    }
    print!("{}", tally);
    close(run, tally.missing());
}

/// This library's own replay alone: what the random lists meet.
pub fn answers(run: &Run) {
    let mut tally = Tally::default();
    for case in run.cases() {
        let input = generate::input(&Random::for_case(run.seed, case));
        tally.add(&input, &output(&mut Reference, &input));
    }
    print!("{}", tally);
    close(run, tally.missing());
}

/// The random inputs as files, for programs that are driven in another way.
pub fn write_inputs(run: &Run, options: &Options) {
    let directory = options.text("to").unwrap_or_else(|| stop("--to is needed"));
    for case in run.cases() {
        let path = format!("{}/{}.bin", directory, case);
        let input = generate::input(&Random::for_case(run.seed, case));
        std::fs::write(&path, input).unwrap_or_else(|fault| stop(&format!("{}: {}", path, fault)));
    }
}

/// A replayer for a path: a program run for each input, or one that takes them all.
fn replayer(path: &str, mode: &str) -> Box<dyn Replayer> {
    match mode {
        "spawn" => Box::new(Spawned { path: path.to_string() }),
        "batch" => Box::new(Batched::start(path).unwrap_or_else(|fault| stop(&format!("{}: {}", path, fault)))),
        _ => stop("--mode is spawn or batch"),
    }
}

fn output(replayer: &mut dyn Replayer, input: &[u8]) -> Vec<u8> {
    let name = replayer.name();
    replayer.replay(input).unwrap_or_else(|fault| stop(&format!("{}: {}", name, fault)))
}

/// Prints a differing case, made as short as it still differs, and fails.
fn report(left: &mut dyn Replayer, right: &mut dyn Replayer, case: u64, input: Vec<u8>) -> ! {
    println!("case {} differs, {} bytes", case, input.len());
    let input = shortened(left, right, input);
    println!("shortened to {} bytes: {:02x?}", input.len(), input);
    println!("{} prints:\n{}", left.name(), String::from_utf8_lossy(&output(left, &input)));
    println!("{} prints:\n{}", right.name(), String::from_utf8_lossy(&output(right, &input)));
    exit(1)
}

/// Leaves out pieces of a differing input, from large to small, as long as the outputs differ.
fn shortened(left: &mut dyn Replayer, right: &mut dyn Replayer, mut input: Vec<u8>) -> Vec<u8> {
    let mut piece = input.len();
    while piece > 0 {
        let mut at = 0;
        while at < input.len() {
            let mut shorter = input.clone();
            shorter.drain(at..input.len().min(at + piece));
            if output(left, &shorter) == output(right, &shorter) {
                at += piece;
            } else {
                input = shorter;
            }
        }
        piece /= 2;
    }
    input
}
