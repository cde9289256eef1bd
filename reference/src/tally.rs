//! Counts what a run met: each answer, each refused field and set-up, and the events that make a run worth its time.

use crate::arbitrary::Numbers;
use crate::field;
use crate::holds;
use crate::replay::{call_of, starting_cells};
use crate::store::{Answer, Buffers, Call, Entry};
use crate::waits;
use crate::written_back;
use std::collections::BTreeMap;
use std::fmt;

/// The answers of calls that every run must meet.
pub const CALL_ANSWERS: [u32; 12] = [1, 2, 3, 4, 5, 6, 100, 101, 102, 103, 104, 105];
/// The refused fields that every run must meet.
pub const FIELD_ANSWERS: [u32; 3] = [10, 11, 12];
/// The refused set-ups that every run must meet.
pub const SETUP_ANSWERS: [u32; 2] = [7, 8];

#[derive(Default)]
pub struct Tally {
    pub inputs: u64,
    pub bytes: u64,
    pub size: u64,
    pub setup: BTreeMap<u32, u64>,
    pub field: BTreeMap<u32, u64>,
    pub calls: BTreeMap<u32, u64>,
    pub events: BTreeMap<&'static str, u64>,
    /// What the calls are of Papers 2, 4 and 6.
    pub kinds: Numbers,
}

impl Tally {
    /// Adds one input and the text that a replay printed for it.
    pub fn add(&mut self, input: &[u8], output: &[u8]) {
        self.inputs += 1;
        self.bytes += input.len() as u64;
        let text = String::from_utf8_lossy(output);
        let mut walk = Walk::new(input);
        for line in text.lines() {
            let words: Vec<&str> = line.split(' ').collect();
            let number = |index: usize| words.get(index).and_then(|word| word.parse::<u32>().ok()).unwrap_or(0);
            match words[0] {
                "size" => self.size += 1,
                "setup" => *self.setup.entry(number(1)).or_default() += 1,
                "field" => *self.field.entry(number(2)).or_default() += 1,
                "c" => (),
                _ => {
                    *self.calls.entry(number(1)).or_default() += 1;
                    let answer = Answer { number: number(1), value: number(2) };
                    if let Some(event) = walk.step(answer, &mut self.kinds) {
                        *self.events.entry(event).or_default() += 1;
                    }
                }
            }
        }
    }

    /// The required answers that did not occur.
    pub fn missing(&self) -> Vec<String> {
        let mut missing = Vec::new();
        let mut need = |kind: &str, counts: &BTreeMap<u32, u64>, numbers: &[u32]| {
            for number in numbers.iter().filter(|number| !counts.contains_key(number)) {
                missing.push(format!("{} {}", kind, number));
            }
        };
        need("call", &self.calls, &CALL_ANSWERS);
        need("field", &self.field, &FIELD_ANSWERS);
        need("setup", &self.setup, &SETUP_ANSWERS);
        if self.size == 0 {
            missing.push("size".to_string());
        }
        missing.extend(self.kinds.missing(&written_back::REQUIRED));
        missing.extend(holds::missing_in_replays(&self.kinds));
        missing.extend(waits::missing_in_lists(&self.kinds));
        missing
    }
}

impl fmt::Display for Tally {
    fn fmt(&self, f: &mut fmt::Formatter) -> fmt::Result {
        writeln!(f, "inputs {}, bytes {}, size {}", self.inputs, self.bytes, self.size)?;
        line(f, "calls", &self.calls)?;
        line(f, "field", &self.field)?;
        line(f, "setup", &self.setup)?;
        for (event, times) in &self.events {
            writeln!(f, "  {}: {}", event, times)?;
        }
        write!(f, "{}", self.kinds)
    }
}

fn line(f: &mut fmt::Formatter, kind: &str, counts: &BTreeMap<u32, u64>) -> fmt::Result {
    write!(f, "{}:", kind)?;
    for (number, times) in counts {
        write!(f, "  {} x {}", number, times)?;
    }
    writeln!(f)
}

/// Follows the calls of an input beside their answers, with a store that runs along.
struct Walk<'a> {
    input: &'a [u8],
    place: usize,
    buffers: Buffers,
}

impl<'a> Walk<'a> {
    fn new(input: &'a [u8]) -> Walk<'a> {
        let (mut buffers, place) = starting_cells(input);
        buffers.set_up();
        Walk { input, place, buffers }
    }

    /// The event of the next call, given its answer; what it is of Papers 2, 4 and 6 is counted.
    fn step(&mut self, answer: Answer, numbers: &mut Numbers) -> Option<&'static str> {
        let reading = field::read_field(self.input, self.place);
        self.place += reading.length;
        let call = call_of(&reading.field)?;
        for kind in [written_back::kinds(&self.buffers, call), holds::kinds(&self.buffers, call)].concat() {
            numbers.add(kind, answer.number);
        }
        waits::count(numbers, waits::kinds(&self.buffers, call), answer);
        let event = self.event(call, answer.number);
        self.buffers.call(call);
        event
    }

    fn event(&self, call: Call, answer: u32) -> Option<&'static str> {
        match (call, answer) {
            (Call::Advance { session }, 105) => {
                Some(if self.published(session) > 1 { "commits of several cells" } else { "commits of one cell" })
            }
            (Call::Seal { .. }, 105) => Some("commits of no cell"),
            (Call::Read { .. }, 6) => Some("roll-backs on a read"),
            (Call::Hold { .. }, 6) => Some("roll-backs on a hold"),
            (Call::Write { .. }, 6) => Some("roll-backs on a write"),
            (Call::Advance { .. }, 6) => Some("roll-backs on an advance"),
            (Call::Abandon { .. }, 100) => Some("roll-backs on an abandon"),
            (Call::Advance { .. }, 104) => Some("waits"),
            (Call::Read { .. }, 5) | (Call::Hold { .. }, 5) | (Call::Write { .. }, 5) => Some("full logs"),
            _ => None,
        }
    }

    /// How many cells the session publishes.
    fn published(&self, session: u8) -> usize {
        self.buffers.sound_entries(session).map_or(0, |entries| entries.counting().filter(Entry::publishes).count())
    }
}
