//! Random many reads: lists of cells and targets on both sides of every limit, on arbitrary buffers; and what their answers are counted as.

use crate::arbitrary::{session, stray_cell, Numbers};
use crate::logs::{asked_cell, Focus};
use crate::random::Random;
use crate::store::{Buffers, ManyAnswer, ManyReads, MAX_ENTRIES, NOBODY, SESSION_WORDS, VALUE};

/// Many reads of any kind.
pub const MANY: &str = "many reads";
/// Many reads that stopped after at least one value.
pub const MANY_AFTER_A_VALUE: &str = "many reads after a value";
/// Many reads that got the value of one cell several times.
pub const MANY_AND_A_CELL_AGAIN: &str = "many reads and a cell again";

/// Counts an answer of many reads under each kind that it is of.
pub fn count(numbers: &mut Numbers, many: &ManyReads, answer: ManyAnswer) {
    numbers.add(MANY, answer.number);
    let got = &many.cells[..answer.count as usize];
    if !got.is_empty() && answer.number != VALUE {
        numbers.add(MANY_AFTER_A_VALUE, answer.number);
    }
    if got.iter().enumerate().any(|(index, cell)| got[..index].contains(cell)) {
        numbers.add(MANY_AND_A_CELL_AGAIN, answer.number);
    }
}

/// The length of a list: often one that fits, and the lengths around 0 and 32.
pub fn length(random: &Random) -> usize {
    match random.weighted(&[3, 12, 60, 18, 4, 3]) {
        0 => 0,
        1 => 1,
        2 => random.range(2, 31),
        3 => 32,
        4 => 33,
        _ => random.pick(&[34, 64, 128, 257, 288, random.range(34, 300)]),
    }
}

/// Many reads of these cells with a target of any contents, often as long as the list, and one word after it that is not lent.
pub fn with_target(random: &Random, session: u8, cells: Vec<u32>) -> ManyReads {
    let lent = match random.weighted(&[50, 32, 9, 4, 5]) {
        0 => cells.len(),
        1 => cells.len() + random.range(1, 8),
        2 => cells.len().saturating_sub(1),
        3 => 0,
        _ => random.below(cells.len() + 1),
    };
    let words = (0..=lent).map(|_| random.word()).collect();
    ManyReads { session, cells, words, lent }
}

/// Many reads on arbitrary buffers, mostly of one session. Most cells can be read; every other list has one that can hardly be, at any place. The
/// first is often one that single calls ask for.
pub fn on_buffers(random: &Random, buffers: &Buffers, focus: Focus) -> ManyReads {
    let own = focus.session;
    let length = length(random);
    let odd = if random.percent(50) { Some(random.below(length + 1)) } else { None };
    let mut cells = Vec::with_capacity(length);
    for index in 0..length {
        cells.push(match index {
            _ if odd == Some(index) => odd_cell(random, buffers),
            0 if random.percent(75) => asked_cell(random, buffers, focus),
            _ => listed_cell(random, buffers, own, &cells),
        });
    }
    with_target(random, session(random, own), cells)
}

/// A cell that the store does not have, or one whose lock has a claimant.
fn odd_cell(random: &Random, buffers: &Buffers) -> u32 {
    if random.percent(40) {
        return stray_cell(random, buffers.values.len());
    }
    some_cell(random, buffers, |claimant| claimant != NOBODY)
}

/// A cell of the session's log, one that stands in the list already, or one that nobody claims.
fn listed_cell(random: &Random, buffers: &Buffers, own: u8, listed: &[u32]) -> u32 {
    let entries = buffers.sessions[own as usize].count.min(MAX_ENTRIES as u8) as usize;
    match random.weighted(&[60, 20, 20]) {
        1 if entries > 0 => {
            let at = SESSION_WORDS * own as usize + 4 * random.below(entries);
            buffers.logs.get(at).copied().unwrap_or(0)
        }
        2 if !listed.is_empty() => random.pick(listed),
        _ => some_cell(random, buffers, |claimant| claimant == NOBODY),
    }
}

/// A cell whose claimant is as wanted, as far as a few tries find one.
fn some_cell(random: &Random, buffers: &Buffers, wanted: impl Fn(u8) -> bool) -> u32 {
    let n = buffers.claimants.len().max(1);
    let tried: Vec<usize> = (0..8).map(|_| random.below(n)).collect();
    let found = tried.iter().find(|cell| buffers.claimants.get(**cell).map_or(false, |claimant| wanted(*claimant)));
    *found.unwrap_or(&tried[0]) as u32
}
