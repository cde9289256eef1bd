//! Document 02, Paper 6: how many are in the way of a session that is told to wait, and what its waits are counted as: each kind by that number.

use crate::arbitrary::Numbers;
use crate::store::{Answer, Buffers, Call, Entry, Session, PROMOTING, RUNNING, SESSIONS, VALUE, WAITING};

/// The most that can be in the way.
const MAX_OTHERS: u32 = 15;

/// A kind of waits: its name, whether one is of it, and the numbers that 104 must be seen to carry there.
type Kind = (&'static str, fn(&Before) -> bool, &'static [u32]);

const FEW: &[u32] = &[1, 2, 3, 4];
const EVERY: &[u32] = &[1, 2, 3, 4, 5, 6, 7, 8, 9, 10, 11, 12, 13, 14, 15];
const SEVERAL: &[u32] = &[2, 3, 4, 5, 6, 7, 8, 9, 10, 11, 12, 13, 14, 15];

/// The kinds that every list of calls can meet.
const IN_LISTS: [Kind; 9] = [
    ("wait for running sessions alone", |before| before.promoting().is_empty(), EVERY),
    ("wait for promoting sessions alone", |before| before.running().is_empty(), &[1, 2, 3]),
    ("wait for running and promoting sessions", |before| !before.running().is_empty() && !before.promoting().is_empty(), SEVERAL),
    ("wait for lower sessions alone", |before| before.others().all(|other| other < before.session), FEW),
    ("wait for higher sessions alone", |before| before.others().all(|other| other > before.session), FEW),
    ("wait beside a session that has let the cell go", |before| before.is_let_go(), FEW),
    ("wait where the cell is claimed", |before| before.is_claimed(), EVERY),
    ("wait past a promoted cell", |before| before.record.next > 0, &[1, 2]),
    ("wait where cell 0 has another number of readers", |before| before.differs_from_cell_0(), FEW),
];

/// The kinds of reader sets that no list of calls leaves, and their like.
const ON_BUFFERS: [Kind; 4] = [
    ("wait, the own bit in the set", |before| before.has_own_bit(), EVERY),
    ("wait, the own bit missing", |before| !before.has_own_bit(), EVERY),
    ("wait, fewer by the logs than in the set", |before| (before.others().count() as u32) < before.other_bits(), EVERY),
    ("wait, more by the logs than in the set", |before| before.others().count() as u32 > before.other_bits(), FEW),
];

/// How many other sessions run with the cell in their log, or promote with it among the cells that they publish. In a run 104 carries this number.
pub fn in_the_way(buffers: &Buffers, session: u8, cell: u32) -> u32 {
    [running(buffers, session, cell), promoting(buffers, session, cell)].concat().len() as u32
}

fn running(buffers: &Buffers, session: u8, cell: u32) -> Vec<u8> {
    others_in(buffers, session, cell, RUNNING, |_| true)
}

fn promoting(buffers: &Buffers, session: u8, cell: u32) -> Vec<u8> {
    others_in(buffers, session, cell, PROMOTING, Entry::publishes)
}

/// The other sessions in this phase whose entry for the cell is as wanted.
fn others_in(buffers: &Buffers, session: u8, cell: u32, phase: u8, wanted: fn(&Entry) -> bool) -> Vec<u8> {
    let entry = |other: u8| buffers.sound_entries(other).ok().and_then(|entries| entries.find(cell));
    let is_in =
        |other: &u8| buffers.sessions[*other as usize].phase == phase && entry(*other).map_or(false, |entry| wanted(&entry));
    (0..SESSIONS as u8).filter(|other| *other != session).filter(is_in).collect()
}

/// A wait of a run that carries another number than that of the sessions in the way, told.
pub fn miscounted(buffers: &Buffers, call: Call, answer: Answer) -> Option<String> {
    if answer.number != WAITING {
        return None;
    }
    let Before { session, cell, .. } = Before::new(buffers, call)?;
    let number = in_the_way(buffers, session, cell);
    if answer.value == number {
        return None;
    }
    Some(format!("session {} waits for {} at cell {}, where {} are in the way", session, answer.value, cell, number))
}

/// Whether an answer's value is one that its number comes with: any with 101, 1 to 15 with 104, else 0.
pub fn fits(answer: Answer) -> bool {
    match answer.number {
        VALUE => true,
        WAITING => (1..=MAX_OTHERS).contains(&answer.value),
        _ => answer.value == 0,
    }
}

/// A promoting session that advances, the cell that it is to promote, and the buffers before.
struct Before<'a> {
    buffers: &'a Buffers,
    session: u8,
    record: Session,
    cell: u32,
}

impl Before<'_> {
    fn new(buffers: &Buffers, call: Call) -> Option<Before<'_>> {
        let session = match call {
            Call::Advance { session } => session,
            _ => return None,
        };
        let (record, entries) = buffers.caller(call)?;
        let cell = entries.lowest_publishing(record.next as u32)?.cell;
        Some(Before { buffers, session, record, cell }).filter(|_| record.phase == PROMOTING)
    }

    fn running(&self) -> Vec<u8> {
        running(self.buffers, self.session, self.cell)
    }

    fn promoting(&self) -> Vec<u8> {
        promoting(self.buffers, self.session, self.cell)
    }

    /// Who is in the way, by the records and the logs.
    fn others(&self) -> impl Iterator<Item = u8> {
        [self.running(), self.promoting()].concat().into_iter()
    }

    /// Whether another session promotes with the cell in its log and not among those that it publishes.
    fn is_let_go(&self) -> bool {
        !others_in(self.buffers, self.session, self.cell, PROMOTING, |entry| !entry.publishes()).is_empty()
    }

    fn is_claimed(&self) -> bool {
        self.buffers.claimants[self.cell as usize] == self.session
    }

    fn readers(&self, cell: u32) -> u16 {
        self.buffers.readers[cell as usize]
    }

    fn differs_from_cell_0(&self) -> bool {
        self.readers(0).count_ones() != self.readers(self.cell).count_ones()
    }

    fn has_own_bit(&self) -> bool {
        self.readers(self.cell) >> self.session & 1 == 1
    }

    fn other_bits(&self) -> u32 {
        self.readers(self.cell).count_ones() - self.has_own_bit() as u32
    }
}

/// The kinds that a call is of if it is answered 104, on the buffers as they are before it.
pub fn kinds(buffers: &Buffers, call: Call) -> Vec<&'static str> {
    let before = match Before::new(buffers, call) {
        Some(before) => before,
        None => return Vec::new(),
    };
    IN_LISTS.iter().chain(&ON_BUFFERS).filter(|kind| kind.1(&before)).map(|kind| kind.0).collect()
}

/// Counts a wait of these kinds.
pub fn count(numbers: &mut Numbers, kinds: Vec<&'static str>, answer: Answer) {
    if answer.number == WAITING {
        kinds.into_iter().for_each(|kind| numbers.add(kind, answer.value));
    }
}

fn missing(numbers: &Numbers, kinds: &[Kind]) -> Vec<String> {
    kinds.iter().flat_map(|kind| numbers.missing(&[(kind.0, kind.2)])).collect()
}

/// What replays and runs must meet and did not.
pub fn missing_in_lists(numbers: &Numbers) -> Vec<String> {
    missing(numbers, &IN_LISTS)
}

/// What calls on arbitrary buffers must meet and did not.
pub fn missing_on_buffers(numbers: &Numbers) -> Vec<String> {
    missing(numbers, &ON_BUFFERS)
}
