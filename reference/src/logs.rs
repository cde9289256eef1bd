//! Random logs, and the cells that calls on them ask for: at any place among the entries, past them, several times, in another session's log.

use crate::arbitrary::stray_cell;
use crate::random::Random;
use crate::store::{Buffers, ENTRY_WORDS, MAX_ENTRIES, SESSION_WORDS};

/// The session that makes most calls on one set of buffers, and the cell that many of them are for.
#[derive(Clone, Copy)]
pub struct Focus {
    pub session: u8,
    pub cell: u32,
}

/// Appends one session's 128 words. In some logs most entries have the value that they found, in others few; in some none is held, in some none
/// written.
pub fn log(random: &Random, values: &[u32], count: usize, asked: u32, logs: &mut Vec<u32>) {
    let back = random.pick(&[2, 5, 30, 60, 95]);
    let without = [0, 2, 1, 3][random.weighted(&[35, 40, 12, 13])];
    for cell in cells(random, values.len(), count.min(MAX_ENTRIES), asked) {
        let marks = random.pick(&[0, 1, random.word(), 2, 3, u32::MAX]);
        let (snapshot, current) = entry_values(random, values.get(cell as usize).copied().unwrap_or(0), back);
        logs.extend_from_slice(&[cell, snapshot, current, marks & !without]);
    }
}

/// The cells of one log: few different ones, so that a cell often has several entries; in most logs the asked one at few places; now and then one
/// not below n. Past the entries there may be anything.
fn cells(random: &Random, n: usize, count: usize, asked: u32) -> Vec<u32> {
    let pool = random.pick(&[n, n, n.min(3), n.min(8)]);
    let first = random.below(n - pool + 1);
    let mut cells: Vec<u32> = (0..MAX_ENTRIES).map(|_| (first + random.below(pool)) as u32).collect();
    let apart = random.percent(80);
    if apart {
        cells.iter_mut().filter(|cell| **cell == asked).for_each(|cell| *cell = (asked + 1) % n as u32);
    }
    match random.weighted(&[60, 20, 10, 10]) {
        0 => (),
        1 => cells[count..].fill_with(|| random.word()),
        2 => cells[count..].fill_with(|| random.pick(&[asked, stray_cell(random, n)])),
        _ => cells[count..].fill(asked),
    }
    if apart {
        let first = place(random, count);
        let places = [first, first + random.range(1, 3), place(random, count)];
        let times = random.pick(&[0, 1, 1, 1, 1, 2, 3]);
        places.iter().take(times).for_each(|place| cells[place % MAX_ENTRIES] = asked);
    }
    if random.percent(14) {
        cells[place(random, count)] = stray_cell(random, n);
    }
    cells
}

/// A place in a log: any one, one of an entry, that of the last entry, or the one right past it.
fn place(random: &Random, count: usize) -> usize {
    let place = match random.weighted(&[1, 2, 1, 1]) {
        0 => random.below(MAX_ENTRIES),
        1 => random.below(count.max(1)),
        2 => count.saturating_sub(1),
        _ => count,
    };
    place.min(MAX_ENTRIES - 1)
}

/// The value found and the current one, equal so many times in a hundred, else often different in one bit. Either may be the store's.
fn entry_values(random: &Random, stored: u32, back: usize) -> (u32, u32) {
    let snapshot = random.pick(&[stored, random.word()]);
    if random.percent(back) {
        return (snapshot, snapshot);
    }
    (snapshot, random.pick(&[stored, snapshot ^ 1 << random.below(32), random.word()]))
}

/// A cell to ask for: the focus, one of its session's log, of session 0's or of the next one's, past the entries too, or any one of the store.
pub fn asked_cell(random: &Random, buffers: &Buffers, focus: Focus) -> u32 {
    let own = focus.session as usize;
    let (session, index) = match random.weighted(&[47, 12, 8, 8, 25]) {
        0 => return focus.cell,
        1 => (own, random.below(MAX_ENTRIES)),
        2 => (0, random.below(MAX_ENTRIES)),
        3 => (own + 1, 0),
        _ => return random.below(buffers.values.len().max(1)) as u32,
    };
    buffers.logs.get(SESSION_WORDS * session + ENTRY_WORDS * index).copied().unwrap_or(focus.cell)
}
