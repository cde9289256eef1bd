//! Document 02, Paper 3: the look-ups of a cell in its session's log on which a search can go wrong, by what the logs hold before the call, and
//! what they are counted as.

use crate::arbitrary::Numbers;
use crate::store::{
    Buffers, Call, ManyAnswer, ManyReads, Table, DAMAGED, ENTRY_WORDS, MAX_ENTRIES, MAX_LIST, RUNNING, SESSIONS, SESSION_WORDS,
    VALUE,
};
use std::collections::BTreeMap;
use std::fmt;
use std::ops::Range;

/// The calls that look a cell up. Many reads count by the first cell of their list.
const CALLS: [&str; 6] = ["read", "many reads", "write", "peek", "hold", "write with caps"];
const READ: usize = 0;
const MANY: usize = 1;
const WRITE: usize = 2;
const PEEK: usize = 3;
const HOLD: usize = 4;
const WRITE_WITH_CAPS: usize = 5;

/// The numbers that each of the calls must be seen to answer.
type Answers = [&'static [u32]; 6];
const FOUND: Answers = [&[101], &[101], &[100], &[100], &[101], &[100]];
const NEW: Answers = [&[6, 101], &[6, 101], &[6, 100], &[14], &[6, 101], &[6, 100]];
const FULL: Answers = [&[5], &[5], &[5], &[14], &[5], &[5]];
const NEW_OR_FULL: Answers = [&[5, 6, 101], &[5, 6, 101], &[5, 6, 100], &[14], &[5, 6, 101], &[5, 6, 100]];
const NEW_OR_FOUND: Answers = [&[6, 101], &[6, 101], &[6, 100], &[14, 100], &[6, 101], &[6, 100]];
const REFUSED: Answers = [&[DAMAGED]; 6];

/// A kind of look-ups: its name, whether one is of it, and its answers.
type Kind = (&'static str, fn(&LookUp) -> bool, Answers);

/// The kinds that a store that was set up meets too: its logs keep the words of earlier transactions.
const IN_RUNS: [Kind; 5] = [
    ("in the last entry", |look_up| look_up.place().map(|place| place + 1) == Some(look_up.count), FOUND),
    ("only past the entries", |look_up| look_up.is_new() && look_up.places(look_up.count..MAX_ENTRIES).next().is_some(), NEW),
    ("only right past the entries", |look_up| look_up.places(0..MAX_ENTRIES).eq([look_up.count]), NEW),
    ("only in session 0's log", |look_up| look_up.is_new() && look_up.place_0(look_up.count).is_some(), NEW_OR_FULL),
    ("at another place in session 0's log", |look_up| look_up.is_elsewhere_in_log_0(), FOUND),
];

/// The other kinds where the cell of every entry is below n. A stray cell is one that is not.
const ON_BUFFERS: [Kind; 4] = [
    ("a later entry tells otherwise", |look_up| look_up.later_differs(), FOUND),
    ("log full, in the next log's first entry", |look_up| look_up.is_only_in_the_next_log(), FULL),
    ("a stray cell past the entries", |look_up| look_up.first_stray_past().is_some(), NEW_OR_FOUND),
    ("a stray cell right past the entries", |look_up| look_up.first_stray_past() == Some(look_up.count), NEW_OR_FOUND),
];

/// The kinds where an entry has a stray cell.
const WITH_STRAYS: [Kind; 3] = [
    ("stray cells only before the place", |look_up| look_up.all_strays(|stray, place| stray < place), REFUSED),
    ("stray cells only after the place", |look_up| look_up.all_strays(|stray, place| stray > place), REFUSED),
    ("a stray cell only in the last entry", |look_up| look_up.all_strays(|stray, _| stray + 1 == look_up.count), REFUSED),
];

/// A call that looks a cell up, or would but for a stray cell among the entries.
struct LookUp<'a> {
    buffers: &'a Buffers,
    call: usize,
    session: usize,
    cell: u32,
    count: usize,
}

impl LookUp<'_> {
    fn word(&self, session: usize, index: usize, word: usize) -> u32 {
        self.buffers.logs[SESSION_WORDS * session + ENTRY_WORDS * index + word]
    }

    /// Where among these entries of the session's log the cell stands.
    fn places(&self, range: Range<usize>) -> impl Iterator<Item = usize> + '_ {
        range.filter(move |index| self.word(self.session, *index, 0) == self.cell)
    }

    /// The place to be found: that of the cell's first entry.
    fn place(&self) -> Option<usize> {
        self.places(0..self.count).next()
    }

    /// Where among these entries of the session's log a stray cell stands.
    fn strays(&self, range: Range<usize>) -> impl Iterator<Item = usize> + '_ {
        range.filter(move |index| self.word(self.session, *index, 0) as usize >= self.buffers.values.len())
    }

    fn first_stray_past(&self) -> Option<usize> {
        self.strays(self.count..MAX_ENTRIES).next()
    }

    /// The cell is found, and each entry with a stray cell lies so to its place.
    fn all_strays(&self, lies: impl Fn(usize, usize) -> bool) -> bool {
        self.place().map_or(false, |place| self.strays(0..self.count).all(|stray| lies(stray, place)))
    }

    fn is_new(&self) -> bool {
        self.place().is_none()
    }

    /// A log's end is the next one's beginning.
    fn is_only_in_the_next_log(&self) -> bool {
        let next = self.session + 1;
        self.is_new() && self.count == MAX_ENTRIES && next < SESSIONS && self.word(next, 0, 0) == self.cell
    }

    /// Where the cell stands among the entries of session 0, another one, below this end.
    fn place_0(&self, end: usize) -> Option<usize> {
        let count = if self.session == 0 { 0 } else { self.buffers.sessions[0].count as usize };
        (0..end.min(count).min(MAX_ENTRIES)).find(|index| self.word(0, *index, 0) == self.cell)
    }

    fn is_elsewhere_in_log_0(&self) -> bool {
        self.place().is_some() && self.place_0(MAX_ENTRIES).map_or(false, |place| Some(place) != self.place())
    }

    /// Whether one of the cell's later entries would give another answer, or another word to change or to hand back.
    fn later_differs(&self) -> bool {
        let differs = |first: usize, later: usize| match self.call {
            WRITE | WRITE_WITH_CAPS | HOLD => true,
            PEEK => (self.word(self.session, first, 3) | self.word(self.session, later, 3)) % 2 == 1,
            _ => self.word(self.session, first, 2) != self.word(self.session, later, 2),
        };
        self.place().map_or(false, |first| self.places(first + 1..self.count).any(|later| differs(first, later)))
    }
}

/// What a look-up is counted as once it is answered.
pub struct Met {
    call: usize,
    kinds: Vec<&'static str>,
    /// The entry count and the place found, where no entry has a stray cell.
    searched: Option<(usize, Option<usize>)>,
}

/// What a call looks up, on the buffers as they are before it.
pub fn of_call(buffers: &Buffers, call: Call) -> Option<Met> {
    match call {
        Call::Read { session, cell } => met(buffers, READ, session, cell),
        Call::Hold { session, cell } => met(buffers, HOLD, session, cell),
        Call::Write { session, cell, value, table } => {
            let class = *buffers.classes.get(cell as usize)?;
            buffers.caps_by(table)?.get(class as usize).filter(|cap| value <= **cap)?;
            met(buffers, if table == Table::Ours { WRITE } else { WRITE_WITH_CAPS }, session, cell)
        }
        Call::Peek { session, cell } => met(buffers, PEEK, session, cell),
        _ => None,
    }
}

/// What many reads look up first.
pub fn of_many(buffers: &Buffers, many: &ManyReads) -> Option<Met> {
    if many.cells.len() > MAX_LIST || many.lent < many.cells.len() {
        return None;
    }
    met(buffers, MANY, many.session, *many.cells.first()?)
}

fn met(buffers: &Buffers, call: usize, session: u8, cell: u32) -> Option<Met> {
    let judged = buffers.sound_entries(session).map(|_| ());
    if !matches!(judged, Ok(()) | Err(DAMAGED)) {
        return None;
    }
    let record = buffers.sessions[session as usize];
    let count = record.count as usize;
    if record.phase != RUNNING || count > MAX_ENTRIES || cell as usize >= buffers.values.len() {
        return None;
    }
    let look_up = LookUp { buffers, call, session: session as usize, cell, count };
    let of = |kinds: &[Kind]| kinds.iter().filter(|kind| kind.1(&look_up)).map(|kind| kind.0).collect::<Vec<_>>();
    if judged.is_err() {
        return Some(Met { call, kinds: of(&WITH_STRAYS), searched: None });
    }
    Some(Met { call, kinds: [of(&IN_RUNS), of(&ON_BUFFERS)].concat(), searched: Some((count, look_up.place())) })
}

/// How often each call met each kind with each answer, each entry count and each place found.
#[derive(Default)]
pub struct LookUps {
    kinds: [Numbers; 6],
    counts: [BTreeMap<usize, u64>; 6],
    places: [BTreeMap<usize, u64>; 6],
}

impl LookUps {
    pub fn add(&mut self, met: Option<Met>, number: u32) {
        let met = match met {
            Some(met) => met,
            None => return,
        };
        met.kinds.into_iter().for_each(|kind| self.kinds[met.call].add(kind, number));
        if let Some((count, place)) = met.searched {
            *self.counts[met.call].entry(count).or_default() += 1;
            place.into_iter().for_each(|place| *self.places[met.call].entry(place).or_default() += 1);
        }
    }

    /// The same of many reads, by the answer of the first.
    pub fn add_many(&mut self, met: Option<Met>, answer: ManyAnswer) {
        self.add(met, if answer.count > 0 { VALUE } else { answer.number });
    }

    /// What runs must meet and did not.
    pub fn missing_in_runs(&self) -> Vec<String> {
        self.missing(&[&IN_RUNS])
    }

    /// What calls on arbitrary buffers must meet and did not.
    pub fn missing_on_buffers(&self) -> Vec<String> {
        self.missing(&[&IN_RUNS, &ON_BUFFERS, &WITH_STRAYS])
    }

    fn missing(&self, required: &[&[Kind]]) -> Vec<String> {
        let mut missing = Vec::new();
        for (call, name) in CALLS.iter().enumerate() {
            let of_kind = |kind: &Kind| self.kinds[call].missing(&[(kind.0, kind.2[call])]);
            let kinds = required.iter().flat_map(|kinds| kinds.iter()).flat_map(of_kind);
            let counts = (0..=MAX_ENTRIES).filter(|count| times(&self.counts[call], *count) == 0);
            let places = (0..MAX_ENTRIES).filter(|place| times(&self.places[call], *place) == 0);
            let numbers = counts.map(|count| format!("count {}", count)).chain(places.map(|place| format!("place {}", place)));
            missing.extend(kinds.chain(numbers).map(|what| format!("look-up by {}: {}", name, what)));
        }
        missing
    }
}

fn times(seen: &BTreeMap<usize, u64>, number: usize) -> u64 {
    seen.get(&number).copied().unwrap_or(0)
}

impl fmt::Display for LookUps {
    fn fmt(&self, f: &mut fmt::Formatter) -> fmt::Result {
        for (call, name) in CALLS.iter().enumerate() {
            let least = |seen, end| (0..end).map(|number| times(seen, number)).min().unwrap_or(0);
            let (counts, places) = (least(&self.counts[call], MAX_ENTRIES + 1), least(&self.places[call], MAX_ENTRIES));
            writeln!(f, "look-ups by {}: each count at least {} times, each place found {}", name, counts, places)?;
            write!(f, "{}", self.kinds[call])?;
        }
        Ok(())
    }
}
