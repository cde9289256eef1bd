//! Lent buffers with arbitrary contents, single calls on them, and arbitrary fields: what no replay can reach.

use crate::caps;
use crate::field::Field;
use crate::loads::LOAD;
use crate::logs::{asked_cell, log, Focus};
use crate::many_reads::{MANY, MANY_AFTER_A_VALUE, MANY_AND_A_CELL_AGAIN};
use crate::random::Random;
use crate::store::{Buffers, Call, Session, Table, IDLE, LOG_WORDS, MAX_ENTRIES, NOBODY, OUR_CAPS, RUNNING, SESSIONS};
use crate::written_back;
use std::collections::BTreeMap;
use std::fmt;

/// The numbers that each call must be seen to answer over a run on arbitrary buffers.
pub const REQUIRED: [(&str, &[u32]); 21] = [
    ("set-up", &[7, 8, 100]),
    ("set-up with caps", &[7, 8, 16, 100]),
    (LOAD, &[2, 7, 8, 16, 17, 100]),
    ("begin", &[1, 2, 7, 9, 100]),
    ("read", &[1, 2, 3, 5, 6, 7, 9, 101]),
    ("hold", &[1, 2, 3, 5, 6, 7, 9, 101]),
    (MANY, &[1, 2, 3, 5, 6, 7, 9, 13, 15, 101]),
    (MANY_AFTER_A_VALUE, &[3, 5, 6]),
    (MANY_AND_A_CELL_AGAIN, &[3, 5, 6, 101]),
    ("write", &[1, 2, 3, 4, 5, 6, 7, 8, 9, 100]),
    ("write with caps", &[1, 2, 3, 4, 5, 6, 7, 8, 9, 100]),
    ("seal", &[1, 2, 7, 9, 102, 105]),
    ("advance", &[1, 2, 6, 7, 9, 103, 104, 105]),
    ("abandon", &[1, 2, 7, 9, 100]),
    ("peek", &[1, 2, 3, 7, 9, 14, 100]),
    (written_back::PEEK, &[100]),
    (written_back::SEAL_DROPPED_BY_THE_FIRST, &[102, 105]),
    (written_back::SEAL_KEPT_BY_THE_FIRST, &[102]),
    (written_back::PROMOTING_NOTHING, &[9]),
    (written_back::PUBLISHING_NOTHING, &[9]),
    (written_back::RELEASING_NOTHING, &[9]),
];

/// The numbers that the field reader and the field writer must be seen to answer.
pub const REQUIRED_FIELDS: [(&str, &[u32]); 2] = [("read field", &[10, 11, 12, 100, 106]), ("write field", &[11, 13, 100])];

/// How often each kind of call gave each number.
#[derive(Default)]
pub struct Numbers {
    counts: BTreeMap<&'static str, BTreeMap<u32, u64>>,
}

impl Numbers {
    pub fn add(&mut self, kind: &'static str, number: u32) {
        *self.counts.entry(kind).or_default().entry(number).or_default() += 1;
    }

    /// The required numbers that did not occur.
    pub fn missing(&self, required: &[(&str, &[u32])]) -> Vec<String> {
        let seen = |kind: &str, number: &u32| self.counts.get(kind).map_or(false, |counts| counts.contains_key(number));
        let pairs = required.iter().flat_map(|(kind, numbers)| numbers.iter().map(move |number| (kind, number)));
        pairs.filter(|(kind, number)| !seen(kind, number)).map(|(kind, number)| format!("{} {}", kind, number)).collect()
    }
}

impl fmt::Display for Numbers {
    fn fmt(&self, f: &mut fmt::Formatter) -> fmt::Result {
        for (kind, counts) in &self.counts {
            write!(f, "{}:", kind)?;
            for (number, times) in counts {
                write!(f, "  {} x {}", number, times)?;
            }
            writeln!(f)?;
        }
        Ok(())
    }
}

pub fn kind(call: Call) -> &'static str {
    match call {
        Call::SetUp { table: Table::Ours } => "set-up",
        Call::SetUp { table: Table::InForce } => "set-up with caps",
        Call::Begin { .. } => "begin",
        Call::Read { .. } => "read",
        Call::Hold { .. } => "hold",
        Call::Write { table: Table::Ours, .. } => "write",
        Call::Write { table: Table::InForce, .. } => "write with caps",
        Call::Seal { .. } => "seal",
        Call::Advance { .. } => "advance",
        Call::Abandon { .. } => "abandon",
        Call::Peek { .. } => "peek",
    }
}

/// Buffers of any contents. Most have lengths that fit, so that the later refusals and the steps are reached.
pub fn buffers(random: &Random) -> (Buffers, Focus) {
    let n = random.pick(&[1, 2, 3, 3, 4, 6, 9, 40, 1024, random.range(1, 1024)]);
    let tame = random.percent(30);
    let classes: Vec<u8> = (0..n).map(|_| class(random, tame)).collect();
    let mut buffers = Buffers {
        values: classes.iter().map(|class| value(random, *class, tame)).collect(),
        readers: (0..n).map(|_| readers(random)).collect(),
        claimants: (0..n).map(|_| claimant(random)).collect(),
        exclusives: (0..n).map(|_| random.pick(&[0, 0, 1, 1, random.byte()])).collect(),
        classes,
        logs: Vec::with_capacity(LOG_WORDS),
        caps: Vec::new(),
        sessions: [Session::default(); SESSIONS],
    };
    let focus = Focus { session: random.below(SESSIONS) as u8, cell: random.below(n) as u32 };
    for session in 0..SESSIONS {
        let mut record = record(random, n);
        if session == focus.session as usize && random.percent(25) {
            record.phase = RUNNING;
        }
        log(random, &buffers.values, record.count as usize, focus.cell, &mut buffers.logs);
        buffers.sessions[session] = record;
    }
    if random.percent(14) {
        rest(random, &mut buffers);
    }
    buffers.caps = caps::any(random, &caps::floors(&buffers), 4);
    if random.percent(5) {
        misfit(random, &mut buffers);
    }
    (buffers, focus)
}

/// Makes every session idle, with any count and next; or all but one, whose phase is often a damaged one, or two, whose phases are equal or add up
/// to 256.
fn rest(random: &Random, buffers: &mut Buffers) {
    buffers.sessions.iter_mut().for_each(|record| record.phase = IDLE);
    let phase = random.pick(&[1, 2, 3, 4, 5, 7, 16, 128, 255, random.byte()]);
    let busy = random.weighted(&[65, 27, 8]);
    if busy > 0 {
        let session = random.pick(&[0, SESSIONS - 1, random.below(SESSIONS)]);
        buffers.sessions[session].phase = phase;
    }
    if busy > 1 {
        buffers.sessions[random.below(SESSIONS)].phase = random.pick(&[phase, phase.wrapping_neg()]);
    }
}

/// Of a hundred calls on these buffers, the loads: many where at most two sessions are not idle.
pub fn loads(buffers: &Buffers) -> usize {
    let busy = buffers.sessions.iter().filter(|record| record.phase != IDLE).count();
    if busy > 2 {
        return 1;
    }
    50
}

fn class(random: &Random, tame: bool) -> u8 {
    if tame || random.percent(90) {
        return random.pick(&[0, 2, 14, 15, random.below(16) as u8]);
    }
    random.pick(&[16, 255, random.byte()])
}

fn value(random: &Random, class: u8, tame: bool) -> u32 {
    let cap = OUR_CAPS.get(class as usize).copied().unwrap_or(0);
    if tame {
        return random.pick(&[0, cap, random.word() % 2]);
    }
    random.pick(&[0, cap, cap.wrapping_add(1), random.word()])
}

/// A reader set of any size: often an empty one or one of one session, of the other sizes each as often.
fn readers(random: &Random) -> u16 {
    match random.weighted(&[40, 20, 20, 20]) {
        0 => 0,
        1 => set(random, 1),
        2 => set(random, random.range(2, SESSIONS / 2)),
        _ => !set(random, random.below(SESSIONS / 2)),
    }
}

/// A set of so many sessions.
fn set(random: &Random, size: usize) -> u16 {
    let mut set = 0u16;
    while set.count_ones() < size as u32 {
        set |= 1 << random.below(SESSIONS);
    }
    set
}

fn claimant(random: &Random) -> u8 {
    match random.weighted(&[70, 22, 8]) {
        0 => NOBODY,
        1 => random.below(SESSIONS) as u8,
        _ => random.byte(),
    }
}

fn record(random: &Random, n: usize) -> Session {
    let phase = match random.weighted(&[14, 40, 18, 12, 12, 4]) {
        5 => random.pick(&[5, 255, random.byte()]),
        phase => phase as u8,
    };
    let count = match random.weighted(&[18, 40, 25, 12, 5]) {
        0 => random.below(7) as u8,
        1 => random.below(MAX_ENTRIES + 1) as u8,
        2 => random.range(24, MAX_ENTRIES) as u8,
        3 => MAX_ENTRIES as u8,
        _ => random.pick(&[33, 34, 128, 255, random.byte()]),
    };
    let next = match random.weighted(&[55, 35, 10]) {
        0 => 0,
        1 => random.below(n + 2) as u16,
        _ => random.pick(&[1023, 1024, 1025, 65_535, random.word() as u16]),
    };
    Session { phase, count, next }
}

/// Gives one buffer a wrong length, or all of them a length that no store has.
fn misfit(random: &Random, buffers: &mut Buffers) {
    let n = buffers.values.len();
    let other = random.pick(&[0, n - 1, n + 1, 1024, 1025]);
    match random.below(8) {
        0 => buffers.values.resize(other, 0),
        1 => buffers.classes.resize(other, 0),
        2 => buffers.readers.resize(other, 0),
        3 => buffers.claimants.resize(other, 0),
        4 => buffers.exclusives.resize(other, 0),
        5 => buffers.logs.resize(random.pick(&[0, 128, 2047, 2049, 4096]), 0),
        _ => {
            let length = random.pick(&[0, 1025, 2000]);
            buffers.values.resize(length, 0);
            buffers.classes.resize(length, 0);
            buffers.readers.resize(length, 0);
            buffers.claimants.resize(length, NOBODY);
            buffers.exclusives.resize(length, 0);
        }
    }
}

/// A cell that a store of `n` cells hardly has.
pub fn stray_cell(random: &Random, n: usize) -> u32 {
    random.pick(&[n as u32, n as u32 + 1, u32::MAX, 1 << 16, random.word()])
}

/// A session, mostly this one.
pub fn session(random: &Random, own: u8) -> u8 {
    if random.percent(4) {
        return random.pick(&[16, 17, 255, random.byte()]);
    }
    own
}

/// Any call, mostly of one session and on cells of the store; a running session mostly looks a cell up.
pub fn call(random: &Random, buffers: &Buffers, focus: Focus) -> Call {
    let own = focus.session;
    let session = session(random, own);
    let n = buffers.values.len();
    let cell = if random.percent(5) { stray_cell(random, n) } else { asked_cell(random, buffers, focus) };
    let table = random.pick(&[Table::Ours, Table::InForce]);
    let caps = buffers.caps_by(table).unwrap_or(OUR_CAPS);
    let cap = buffers.classes.get(cell as usize).and_then(|class| caps.get(*class as usize)).copied().unwrap_or(0);
    let found = buffers.found(own, cell).unwrap_or(0);
    let value = random.pick(&[0, 1, cap, cap.wrapping_add(1), random.word(), found]);
    let running = buffers.sessions[own as usize].phase == RUNNING;
    let weights = if running { [2, 4, 18, 18, 29, 9, 5, 3, 12] } else { [6, 8, 12, 12, 14, 8, 29, 4, 7] };
    match random.weighted(&weights) {
        0 => Call::SetUp { table },
        1 => Call::Begin { session },
        2 => Call::Read { session, cell },
        3 => Call::Hold { session, cell },
        4 => Call::Write { session, cell, value, table },
        5 => Call::Seal { session },
        6 => Call::Advance { session },
        7 => Call::Abandon { session },
        _ => Call::Peek { session, cell },
    }
}

/// Any field to write, and a target of any length and contents.
pub fn field(random: &Random) -> (Field, Vec<u8>) {
    let field = Field {
        tag: random.pick(&[1, 2, 3, 4, 5, 6, 8, 9, random.byte()]),
        session: random.byte(),
        cell: random.word() as u16,
        class: random.byte(),
        value: random.word(),
    };
    let target = (0..random.below(14)).map(|_| random.byte()).collect();
    (field, target)
}

/// Bytes to read a field from, often a good one, and a place in or after them.
pub fn bytes(random: &Random) -> (Vec<u8>, usize) {
    let mut bytes: Vec<u8> = (0..random.below(12)).map(|_| random.byte()).collect();
    let place = random.below(bytes.len() + 3);
    if let Some(tag) = bytes.get_mut(place) {
        *tag = random.pick(&[1, 2, 3, 4, 5, 6, 8, 9, *tag]);
        let own = crate::field::body_length(*tag).unwrap_or(1) as u8;
        if random.percent(80) && place + 2 < bytes.len() {
            bytes[place + 1] = own;
            bytes[place + 2] = if random.percent(90) { 0 } else { random.byte() };
        }
    }
    (bytes, place)
}
