//! Random runs: lists of calls on a store that is set up, with peeks, many reads and loads among them, which no replay can carry. The store runs
//! along, as it does where a replay's input is made.

use crate::arbitrary::stray_cell;
use crate::caps;
use crate::generate::{self, Shape};
use crate::loads::LOAD;
use crate::many_reads::{self, MANY, MANY_AFTER_A_VALUE, MANY_AND_A_CELL_AGAIN};
use crate::random::Random;
use crate::replay::call_of;
use crate::store::{Buffers, Call, ManyReads, Table, DONE, RUNNING, SESSIONS, TABLE_CAPS};
use crate::written_back;

/// The numbers that each call must be seen to answer over the runs: every one that it can give on a store that is set up.
pub const REQUIRED: [(&str, &[u32]); 16] = [
    ("set-up", &[100]),
    ("set-up with caps", &[100]),
    (LOAD, &[2, 7, 16, 17, 100]),
    ("begin", &[1, 2, 100]),
    ("read", &[1, 2, 3, 5, 6, 101]),
    ("hold", &[1, 2, 3, 5, 6, 101]),
    (MANY, &[1, 2, 3, 5, 6, 13, 15, 101]),
    (MANY_AFTER_A_VALUE, &[3, 5, 6]),
    (MANY_AND_A_CELL_AGAIN, &[3, 5, 6, 101]),
    ("write", &[1, 2, 3, 4, 5, 6, 100]),
    ("write with caps", &[1, 2, 3, 4, 5, 6, 100]),
    ("seal", &[1, 2, 102, 105]),
    ("advance", &[1, 2, 6, 103, 104, 105]),
    ("abandon", &[1, 2, 100]),
    ("peek", &[1, 2, 3, 14, 100]),
    (written_back::PEEK, &[100]),
];

/// A call of a run.
pub enum Next {
    One(Call),
    Many(ManyReads),
    Load(Vec<u32>),
}

/// The store where a run starts, and how its calls are chosen. Every other run goes by tables of the caller's own, most of them from set-up on; the
/// rest lend document 01's, as the table in force or not at all.
pub fn start(random: &Random) -> (Shape, Buffers) {
    let (mut shape, mut buffers) = generate::set_up(random, &mut Vec::new());
    shape.own_caps = random.percent(50);
    if shape.own_caps && shape.crowd.is_none() && random.percent(60) {
        shape.sessions = random.range(1, 2);
    }
    if shape.own_caps && random.percent(70) {
        buffers.caps = caps::fitting(random, &[0; TABLE_CAPS]);
        let value = |class: &u8| generate::value_within(random, buffers.caps[*class as usize]);
        buffers.values = buffers.classes.iter().map(value).collect();
    }
    assert_eq!(buffers.set_up_by(Table::InForce).number, DONE);
    (shape, buffers)
}

/// The next call after those so far. Every write is by the caps in force.
pub fn next(random: &Random, shape: &Shape, buffers: &Buffers) -> Next {
    let loads = if buffers.all_idle() { 30 } else { 1 };
    if shape.own_caps && random.percent(loads) {
        return Next::Load(caps::to_load(random, buffers));
    }
    let session = session(random, shape, buffers);
    match random.weighted(&[76, 6, 18]) {
        0 => Next::One(single(random, shape, buffers)),
        1 => Next::One(Call::Peek {
            session,
            cell: generate::choose_cell(random, shape, buffers, session % SESSIONS as u8) as u32,
        }),
        _ => Next::Many(many_reads::with_target(random, session, cells(random, shape, buffers, session % SESSIONS as u8))),
    }
}

/// A call that a field carries; a write often as the call that is handed the table in force, and always where that table is the caller's own.
fn single(random: &Random, shape: &Shape, buffers: &Buffers) -> Call {
    match call_of(&generate::next_call(random, shape, buffers)).expect("the field of a call") {
        Call::Write { session, cell, value, .. } if shape.own_caps || random.percent(30) => {
            Call::Write { session, cell, value, table: Table::InForce }
        }
        call => call,
    }
}

/// A session, mostly a running one; now and then one above 15.
fn session(random: &Random, shape: &Shape, buffers: &Buffers) -> u8 {
    if random.percent(2) {
        return random.pick(&[16, 17, 255, random.byte()]);
    }
    let tried: Vec<usize> = (0..4).map(|_| random.below(shape.sessions)).collect();
    let running = tried.iter().find(|session| buffers.sessions[**session].phase == RUNNING);
    *running.unwrap_or(&tried[0]) as u8
}

/// The cells of a list: new ones one after the other where the run fills its logs, else few cells again and again; now and then a stray one.
fn cells(random: &Random, shape: &Shape, buffers: &Buffers, session: u8) -> Vec<u32> {
    let n = buffers.values.len();
    let length = many_reads::length(random);
    let first = 16 * session as usize + buffers.sessions[session as usize].count as usize;
    let stray = if random.percent(12) { Some(random.below(length + 1)) } else { None };
    let cell = |index: usize| {
        if stray == Some(index) {
            return stray_cell(random, n);
        }
        if shape.sweeping && random.percent(85) {
            return ((first + index) % n) as u32;
        }
        random.below(if random.percent(60) { shape.hot } else { n }) as u32
    };
    (0..length).map(cell).collect()
}
