//! Document 02, Paper 4: the calls on which a held mark matters, by what the session's log is before them, and what they are counted as.

use crate::arbitrary::Numbers;
use crate::store::{Buffers, Call, Entries, Entry, Session, PROMOTING, PUBLISHING, RELEASING, RUNNING};

/// A kind of calls: its name, whether one is of it, and the numbers that it must be seen to answer.
type Kind = (&'static str, fn(&Before) -> bool, &'static [u32]);

/// The kinds that every list of calls can meet. An unchanged cell has the value found, written or not.
const IN_REPLAYS: [Kind; 26] = [
    ("hold of a new cell", |before| before.holds_new(), &[5, 6, 101]),
    ("hold of a read cell", |before| before.holds(|entry| !entry.held && !entry.dirty), &[101]),
    ("hold of a written cell", |before| before.holds(|entry| !entry.held && entry.dirty), &[101]),
    ("hold of a held cell", |before| before.holds(|entry| entry.held && !entry.dirty), &[101]),
    ("hold of a held and written cell", |before| before.holds(|entry| entry.held && entry.dirty), &[101]),
    ("read of a held cell", |before| before.reads(|entry| entry.held), &[101]),
    ("write to a held cell", |before| before.writes(|entry, _| entry.held && !entry.dirty), &[100]),
    ("write to a held and written cell", |before| before.writes(|entry, _| entry.held && entry.dirty), &[100]),
    ("write back to a held cell", |before| before.writes(|entry, value| entry.held && entry.snapshot == value), &[100]),
    ("abandon with a held cell", |before| before.abandons() && before.first(|entry| entry.held), &[100]),
    ("call on a cell that is claimed by a hold", |before| before.meets_a_hold(), &[6]),
    ("seal, only unwritten cells to publish", |before| before.seals_only(|entry| !entry.dirty), &[102]),
    ("seal, only unchanged cells to publish", |before| before.seals_only(unchanged), &[102]),
    ("seal with a held cell written back", |before| before.seals() && before.first(|entry| held_back(entry)), &[102]),
    ("seal with a held cell changed", |before| before.seals() && before.first(|entry| entry.held && entry.changed()), &[102]),
    ("seal with a held cell and a dropped write", |before| before.seals_beside_a_dropped_write(), &[102]),
    ("promotion of a held unwritten cell", |before| before.advances(PROMOTING, |entry| !entry.dirty), &[6, 103, 104]),
    ("promotion of a held cell written back", |before| before.advances(PROMOTING, held_back), &[6, 103, 104]),
    ("publication of a held unwritten cell", |before| before.advances(PUBLISHING, |entry| !entry.dirty), &[103]),
    ("publication of a held cell written back", |before| before.advances(PUBLISHING, held_back), &[103]),
    ("publication of a held cell changed", |before| before.advances(PUBLISHING, |entry| entry.held && entry.changed()), &[103]),
    ("release of a held unwritten cell", |before| before.advances(RELEASING, |entry| !entry.dirty), &[103, 105]),
    ("release of a held cell written back", |before| before.advances(RELEASING, held_back), &[103, 105]),
    ("promoting, only unchanged cells left", |before| before.asks_with_unchanged_left(PROMOTING), &[2, 100]),
    ("publishing, only unchanged cells left", |before| before.asks_with_unchanged_left(PUBLISHING), &[2]),
    ("releasing, only unchanged cells left", |before| before.asks_with_unchanged_left(RELEASING), &[2]),
];

/// The kinds that calls meet where peeks are among them.
const WITH_PEEKS: [Kind; 2] = [
    ("peek of a held unwritten cell", |before| before.peeks(|entry| entry.held && !entry.dirty), &[100]),
    ("peek of a held and written cell", |before| before.peeks(|entry| entry.held && entry.dirty), &[100]),
];

/// The kinds that no list of calls meets: bits above the marks, several entries of a cell, and values and records that no call leaves.
const ON_BUFFERS: [Kind; 26] = [
    ("hold over higher bits and no mark", |before| before.holds(|entry| higher(entry, 0)), &[101]),
    ("hold over higher bits and written", |before| before.holds(|entry| higher(entry, 1)), &[101]),
    ("hold over higher bits and held", |before| before.holds(|entry| higher(entry, 2)), &[101]),
    ("hold over higher bits and both marks", |before| before.holds(|entry| higher(entry, 3)), &[101]),
    ("write over higher bits and no mark", |before| before.writes(|entry, _| higher(entry, 0)), &[100]),
    ("write over higher bits and written", |before| before.writes(|entry, _| higher(entry, 1)), &[100]),
    ("write over higher bits and held", |before| before.writes(|entry, _| higher(entry, 2)), &[100]),
    ("write over higher bits and both marks", |before| before.writes(|entry, _| higher(entry, 3)), &[100]),
    ("peek over higher bits and held", |before| before.peeks(|entry| higher(entry, 2)), &[100]),
    ("hold, a later entry marked otherwise", |before| before.holds_with_a_later_entry(), &[101]),
    ("seal, only a later entry held", |before| before.seals() && before.held_later(0), &[102, 105]),
    ("seal, only the first entry held", |before| before.seals() && before.held_first(), &[102]),
    ("seal, higher bits and no mark", |before| before.seals() && before.first(|entry| higher(entry, 0)), &[102, 105]),
    ("seal, held with a value neither found nor written", |before| before.seals() && before.first(odd_value), &[102]),
    ("publication of a value neither found nor written", |before| before.advances(PUBLISHING, odd_value), &[103]),
    ("publication of the value found over another", |before| before.publishes_over_another(), &[103]),
    ("promotion of a cell whose later entry is not held", |before| before.advances_by_the_first(PROMOTING), &[6, 103, 104]),
    ("promoting, only later entries held", |before| before.held_only_later(PROMOTING), &[9]),
    ("publishing, only later entries held", |before| before.held_only_later(PUBLISHING), &[9]),
    ("releasing, only later entries held", |before| before.held_only_later(RELEASING), &[9]),
    ("promoting, held cells only below next", |before| before.held_only_below(PROMOTING), &[9]),
    ("publishing, held cells only below next", |before| before.held_only_below(PUBLISHING), &[9]),
    ("releasing, held cells only below next", |before| before.held_only_below(RELEASING), &[9]),
    ("promoting, only higher bits left", |before| before.only_higher_bits_left(PROMOTING), &[9]),
    ("publishing, only higher bits left", |before| before.only_higher_bits_left(PUBLISHING), &[9]),
    ("releasing, only higher bits left", |before| before.only_higher_bits_left(RELEASING), &[9]),
];

/// With the value found, written or not.
fn unchanged(entry: &Entry) -> bool {
    entry.current == entry.snapshot
}

/// Held and written, with the value found.
fn held_back(entry: &Entry) -> bool {
    entry.held && entry.dirty && unchanged(entry)
}

/// Held and not written, with another value than the one found.
fn odd_value(entry: &Entry) -> bool {
    entry.held && !entry.dirty && !unchanged(entry)
}

/// These marks, and bits above them.
fn higher(entry: &Entry, marks: u32) -> bool {
    entry.marks > 3 && entry.marks % 4 == marks
}

/// A call of a session whose entries can be judged, and the buffers before it.
struct Before<'a> {
    buffers: &'a Buffers,
    call: Call,
    record: Session,
    entries: Entries,
}

impl Before<'_> {
    fn next(&self) -> u32 {
        self.record.next as u32
    }

    fn running(&self) -> bool {
        self.record.phase == RUNNING
    }

    /// Whether a running session's call finds the cell, and its entry is as wanted.
    fn finds(&self, cell: u32, wanted: impl Fn(&Entry) -> bool) -> bool {
        self.running() && self.entries.find(cell).map_or(false, |entry| wanted(&entry))
    }

    fn holds(&self, wanted: fn(&Entry) -> bool) -> bool {
        matches!(self.call, Call::Hold { cell, .. } if self.finds(cell, wanted))
    }

    fn holds_new(&self) -> bool {
        let new = |cell: u32| (cell as usize) < self.buffers.values.len() && self.entries.find(cell).is_none();
        self.running() && matches!(self.call, Call::Hold { cell, .. } if new(cell))
    }

    fn reads(&self, wanted: fn(&Entry) -> bool) -> bool {
        matches!(self.call, Call::Read { cell, .. } if self.finds(cell, wanted))
    }

    fn peeks(&self, wanted: fn(&Entry) -> bool) -> bool {
        matches!(self.call, Call::Peek { cell, .. } if self.finds(cell, wanted))
    }

    fn writes(&self, wanted: fn(&Entry, u32) -> bool) -> bool {
        matches!(self.call, Call::Write { cell, value, .. } if self.finds(cell, |entry| wanted(entry, value)))
    }

    fn seals(&self) -> bool {
        self.running() && matches!(self.call, Call::Seal { .. })
    }

    fn abandons(&self) -> bool {
        matches!(self.call, Call::Abandon { .. })
    }

    /// Whether an entry that counts is as wanted.
    fn first(&self, wanted: fn(&Entry) -> bool) -> bool {
        self.entries.counting().any(|entry| wanted(&entry))
    }

    /// Whether the session seals, and all that it has to publish is as wanted, and is something.
    fn seals_only(&self, wanted: fn(&Entry) -> bool) -> bool {
        self.seals()
            && self.first(Entry::publishes)
            && self.entries.counting().filter(Entry::publishes).all(|entry| wanted(&entry))
    }

    fn seals_beside_a_dropped_write(&self) -> bool {
        self.seals() && self.first(|entry| entry.held) && self.first(Entry::dropped)
    }

    /// Whether the session advances in this phase, on an entry as wanted.
    fn advances(&self, phase: u8, wanted: fn(&Entry) -> bool) -> bool {
        matches!(self.call, Call::Advance { .. })
            && self.record.phase == phase
            && self.handled().map_or(false, |entry| wanted(&entry))
    }

    /// The entry that an advance handles.
    fn handled(&self) -> Option<Entry> {
        self.entries.lowest_publishing(self.next())
    }

    fn later_entries(&self, first: Entry) -> impl Iterator<Item = Entry> + '_ {
        self.entries.0.iter().copied().filter(move |later| later.cell == first.cell && later.at > first.at)
    }

    fn advances_by_the_first(&self, phase: u8) -> bool {
        let alone = |entry: Entry| !entry.changed() && self.later_entries(entry).any(|later| !later.publishes());
        self.advances(phase, |entry| entry.held) && self.handled().map_or(false, alone)
    }

    fn publishes_over_another(&self) -> bool {
        let over = |entry: Entry| self.buffers.values[entry.cell as usize] != entry.snapshot;
        self.advances(PUBLISHING, unchanged) && self.handled().map_or(false, over)
    }

    /// Whether a call other than advance comes in this phase, where 9 goes by held and unchanged cells alone.
    fn asks_with_unchanged_left(&self, phase: u8) -> bool {
        let left = |entry: &Entry| entry.publishes() && entry.cell >= self.next();
        self.record.phase == phase
            && !matches!(self.call, Call::Advance { .. })
            && self.handled().is_some()
            && self.entries.counting().filter(left).all(|entry| unchanged(&entry))
    }

    /// Whether the session is in this phase with nothing to publish at or above next.
    fn nothing_left(&self, phase: u8) -> bool {
        self.record.phase == phase && self.handled().is_none()
    }

    fn held_only_below(&self, phase: u8) -> bool {
        self.nothing_left(phase) && self.first(|entry| entry.held)
    }

    fn held_only_later(&self, phase: u8) -> bool {
        self.nothing_left(phase) && self.held_later(self.next())
    }

    fn only_higher_bits_left(&self, phase: u8) -> bool {
        self.nothing_left(phase) && self.entries.counting().any(|entry| higher(&entry, 0) && entry.cell >= self.next())
    }

    /// Whether a cell not below this one has a later entry that is held, and a first one that does not publish.
    fn held_later(&self, from: u32) -> bool {
        let unheld = |entry: &Entry| !entry.publishes() && entry.cell >= from;
        self.entries.counting().filter(unheld).any(|entry| self.later_entries(entry).any(|later| later.held))
    }

    /// Whether a cell publishes by its first entry's held mark alone, and a later entry of it does not.
    fn held_first(&self) -> bool {
        let by_mark = |entry: &Entry| entry.held && !entry.changed();
        self.entries.counting().filter(by_mark).any(|entry| self.later_entries(entry).any(|later| !later.publishes()))
    }

    fn holds_with_a_later_entry(&self) -> bool {
        let otherwise = |first: &Entry| self.later_entries(*first).any(|later| later.marks % 4 != first.marks % 4);
        matches!(self.call, Call::Hold { cell, .. } if self.finds(cell, otherwise))
    }

    /// Whether the cell of a call is claimed by a session that holds it and has not written it.
    fn meets_a_hold(&self) -> bool {
        let cell = match self.call {
            Call::Read { cell, .. } | Call::Hold { cell, .. } | Call::Write { cell, .. } if self.running() => cell,
            Call::Advance { .. } if self.record.phase == PROMOTING => match self.handled() {
                Some(entry) => entry.cell,
                None => return false,
            },
            _ => return false,
        };
        let claimant = match self.buffers.claimants.get(cell as usize) {
            Some(claimant) => *claimant,
            None => return false,
        };
        let theirs = self.buffers.sound_entries(claimant).ok().and_then(|entries| entries.find(cell));
        Some(claimant) != self.call.session() && theirs.map_or(false, |entry| entry.held && !entry.dirty)
    }
}

/// The kinds that a call is of, on the buffers as they are before it.
pub fn kinds(buffers: &Buffers, call: Call) -> Vec<&'static str> {
    let (record, entries) = match buffers.caller(call) {
        Some(caller) => caller,
        None => return Vec::new(),
    };
    let before = Before { buffers, call, record, entries };
    let all = IN_REPLAYS.iter().chain(&WITH_PEEKS).chain(&ON_BUFFERS);
    all.filter(|kind| kind.1(&before)).map(|kind| kind.0).collect()
}

fn missing(numbers: &Numbers, kinds: &[Kind]) -> Vec<String> {
    kinds.iter().flat_map(|kind| numbers.missing(&[(kind.0, kind.2)])).collect()
}

/// What replays must meet and did not.
pub fn missing_in_replays(numbers: &Numbers) -> Vec<String> {
    missing(numbers, &IN_REPLAYS)
}

/// What runs must meet and did not.
pub fn missing_in_runs(numbers: &Numbers) -> Vec<String> {
    [missing_in_replays(numbers), missing(numbers, &WITH_PEEKS)].concat()
}

/// What calls on arbitrary buffers must meet and did not.
pub fn missing_on_buffers(numbers: &Numbers) -> Vec<String> {
    [missing_in_runs(numbers), missing(numbers, &ON_BUFFERS)].concat()
}
