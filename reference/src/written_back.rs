//! Document 02, Paper 2: the calls on which a value that was written back matters, by what the session's log is before them, and what they are
//! counted as. The cell that is written back, or changed instead, is not held: held ones are in `holds`.

use crate::store::{Buffers, Call, Entries, Entry, Session, PROMOTING, PUBLISHING, RELEASING, RUNNING};

/// A write of the value found, to a cell that is not in the log, one that was only read, and one that was changed before.
pub const WRITE_TO_A_NEW_CELL: &str = "write back to a new cell";
pub const WRITE_TO_A_READ_CELL: &str = "write back to a read cell";
pub const WRITE_TO_A_CHANGED_CELL: &str = "write back to a changed cell";
/// A write of another value to a cell that was written back.
pub const CHANGE: &str = "change of a written-back cell";
/// A peek of a written-back cell.
pub const PEEK: &str = "peek of a written-back cell";
/// A seal that drops a write.
pub const SEAL: &str = "seal that drops a write";
/// A seal with a cell whose first entry is written back and a later one not, and the other way round.
pub const SEAL_DROPPED_BY_THE_FIRST: &str = "seal, only a later entry changed";
pub const SEAL_KEPT_BY_THE_FIRST: &str = "seal, a later entry written back";
/// An advance with a dropped write between next and its cell.
pub const ADVANCE_PAST: &str = "advance past a dropped write";
/// An advance on the last cell that publishes, with a dropped write above it.
pub const ADVANCE_BELOW: &str = "advance below a dropped write";
/// Any call of a session in this phase that has dropped writes, and nothing else written, at or above next.
pub const PROMOTING_NOTHING: &str = "promoting, only dropped writes left";
pub const PUBLISHING_NOTHING: &str = "publishing, only dropped writes left";
pub const RELEASING_NOTHING: &str = "releasing, only dropped writes left";

/// The kinds, each with the numbers it must be seen to answer, that every list of calls can meet.
pub const REQUIRED: [(&str, &[u32]); 7] = [
    (WRITE_TO_A_NEW_CELL, &[100]),
    (WRITE_TO_A_READ_CELL, &[100]),
    (WRITE_TO_A_CHANGED_CELL, &[100]),
    (CHANGE, &[100]),
    (SEAL, &[102, 105]),
    (ADVANCE_PAST, &[6, 103, 104, 105]),
    (ADVANCE_BELOW, &[6, 103, 104, 105]),
];

/// The kinds that a call is of, on the buffers as they are before it.
pub fn kinds(buffers: &Buffers, call: Call) -> Vec<&'static str> {
    let (record, entries) = match buffers.caller(call) {
        Some(caller) => caller,
        None => return Vec::new(),
    };
    match (record.phase, call) {
        (RUNNING, Call::Write { cell, value, .. }) => {
            write(entries.find(cell), buffers.values.get(cell as usize).copied(), value).into_iter().collect()
        }
        (RUNNING, Call::Peek { cell, .. }) => entries.find(cell).filter(Entry::dropped).map(|_| PEEK).into_iter().collect(),
        (RUNNING, Call::Seal { .. }) => seal(&entries),
        (PROMOTING..=RELEASING, call) => sealed(&entries, record, call),
        _ => Vec::new(),
    }
}

/// Changed and not held, so that its value alone makes it count as written.
fn changed_unheld(entry: &Entry) -> bool {
    entry.changed() && !entry.held
}

fn write(entry: Option<Entry>, stored: Option<u32>, value: u32) -> Option<&'static str> {
    let back = entry.map(|entry| entry.snapshot).or(stored) == Some(value);
    match (entry, back) {
        (None, true) => Some(WRITE_TO_A_NEW_CELL),
        (Some(entry), true) if !entry.dirty && !entry.held => Some(WRITE_TO_A_READ_CELL),
        (Some(entry), true) if changed_unheld(&entry) => Some(WRITE_TO_A_CHANGED_CELL),
        (Some(entry), false) if entry.dropped() => Some(CHANGE),
        _ => None,
    }
}

fn seal(entries: &Entries) -> Vec<&'static str> {
    let has_later = |first: Entry, wanted: fn(&Entry) -> bool| {
        entries.0.iter().any(|later| later.cell == first.cell && later.at > first.at && wanted(later))
    };
    let first = |wanted: fn(&Entry) -> bool| entries.counting().filter(wanted);
    let mut kinds = Vec::new();
    if first(Entry::dropped).next().is_some() {
        kinds.push(SEAL);
    }
    if first(Entry::dropped).any(|entry| has_later(entry, changed_unheld)) {
        kinds.push(SEAL_DROPPED_BY_THE_FIRST);
    }
    if first(changed_unheld).any(|entry| has_later(entry, Entry::dropped)) {
        kinds.push(SEAL_KEPT_BY_THE_FIRST);
    }
    kinds
}

fn sealed(entries: &Entries, record: Session, call: Call) -> Vec<&'static str> {
    let next = record.next as u32;
    let dropped: Vec<u32> =
        entries.counting().filter(Entry::dropped).map(|entry| entry.cell).filter(|cell| *cell >= next).collect();
    let cell = match entries.lowest_publishing(next) {
        Some(entry) => entry.cell,
        None if dropped.is_empty() => return Vec::new(),
        None if record.phase == PROMOTING => return vec![PROMOTING_NOTHING],
        None if record.phase == PUBLISHING => return vec![PUBLISHING_NOTHING],
        None => return vec![RELEASING_NOTHING],
    };
    let mut kinds = Vec::new();
    if !matches!(call, Call::Advance { .. }) {
        return kinds;
    }
    if dropped.iter().any(|dropped| *dropped < cell) {
        kinds.push(ADVANCE_PAST);
    }
    if dropped.iter().any(|dropped| *dropped > cell) && entries.lowest_publishing(cell + 1).is_none() {
        kinds.push(ADVANCE_BELOW);
    }
    kinds
}
