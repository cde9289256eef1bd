//! The store's calls: document 01, 'The steps' and 'When a call is turned down', and document 02, Papers 1 to 6.
//! Every call is total: it says what happens for any contents and any lengths of the lent buffers.

use crate::caps::passes;
pub use crate::lent::*;

/// One log entry and the index of its first word in all the logs.
#[derive(Clone, Copy)]
pub struct Entry {
    pub at: usize,
    pub cell: u32,
    pub snapshot: u32,
    pub current: u32,
    /// The fourth word as it stands: its two lowest bits are the marks.
    pub marks: u32,
    /// Written, whatever the value: peek goes by this.
    pub dirty: bool,
    /// Held, written or not.
    pub held: bool,
}

impl Entry {
    /// What counts as written from the seal on: held, or changed.
    pub fn publishes(&self) -> bool {
        self.held || self.changed()
    }

    /// Dirty, and with another value than the one found.
    pub fn changed(&self) -> bool {
        self.dirty && self.current != self.snapshot
    }

    /// Dirty, and yet with the value found, and not held: from the seal on the same as read.
    pub fn dropped(&self) -> bool {
        self.dirty && !self.publishes()
    }
}

/// The entries of the calling session, judged: at most 32, every cell in the store.
pub struct Entries(pub Vec<Entry>);

impl Entries {
    /// The entry that counts for a cell: of several, the first.
    pub fn find(&self, cell: u32) -> Option<Entry> {
        self.0.iter().copied().find(|entry| entry.cell == cell)
    }

    /// The entries that count, one for each entered cell.
    pub fn counting(&self) -> impl Iterator<Item = Entry> + '_ {
        self.0.iter().copied().filter(move |entry| self.find(entry.cell).map(|first| first.at) == Some(entry.at))
    }

    /// The lowest cell not below `next` that publishes.
    pub fn lowest_publishing(&self, next: u32) -> Option<Entry> {
        self.counting().filter(|entry| entry.publishes() && entry.cell >= next).min_by_key(|entry| entry.cell)
    }
}

fn refuse(number: u32) -> Answer {
    Answer { number, value: 0 }
}

fn good(number: u32) -> Answer {
    Answer { number, value: 0 }
}

impl Buffers {
    /// Any call by its name. A peek's number is that of its twin.
    pub fn call(&mut self, call: Call) -> Answer {
        match call {
            Call::SetUp { table } => self.set_up_by(table),
            Call::Begin { session } => self.begin(session),
            Call::Read { session, cell } => self.read(session, cell),
            Call::Hold { session, cell } => self.hold(session, cell),
            Call::Write { session, cell, value, table } => self.write(session, cell, value, table),
            Call::Seal { session } => self.seal(session),
            Call::Advance { session } => self.advance(session),
            Call::Abandon { session } => self.abandon(session),
            Call::Peek { session, cell } => self.peek_number(session, cell),
        }
    }

    /// Set-up by document 01's caps.
    pub fn set_up(&mut self) -> Answer {
        self.set_up_by(Table::Ours)
    }

    pub fn set_up_by(&mut self, table: Table) -> Answer {
        let caps = match self.caps_by(table) {
            Some(caps) if self.lengths_fit() => caps,
            _ => return refuse(WRONG_LENGTH),
        };
        if !passes(&caps) {
            return refuse(UNFIT_CAPS);
        }
        if self.cells().any(|(class, value)| class > MAX_CLASS || value > caps[class as usize]) {
            return refuse(BAD_CELL);
        }
        self.sessions = [Session::default(); SESSIONS];
        self.readers.fill(0);
        self.claimants.fill(NOBODY);
        self.exclusives.fill(0);
        self.logs.fill(0);
        good(DONE)
    }

    /// Load: puts a new table of caps in force while every session is idle. Cells are judged by class first, all of them, and then by value.
    pub fn load_caps(&mut self, new_caps: &[u32]) -> Answer {
        if !self.lengths_fit() || self.caps.len() != TABLE_CAPS || new_caps.len() != TABLE_CAPS {
            return refuse(WRONG_LENGTH);
        }
        if !self.all_idle() {
            return refuse(WRONG_PHASE);
        }
        if !passes(new_caps) {
            return refuse(UNFIT_CAPS);
        }
        if self.classes.iter().any(|class| *class > MAX_CLASS) {
            return refuse(BAD_CELL);
        }
        if self.cells().any(|(class, value)| value > new_caps[class as usize]) {
            return refuse(ABOVE_NEW_CAP);
        }
        self.caps = new_caps.to_vec();
        good(DONE)
    }

    /// Whether every session's phase is 0; a damaged one is not.
    pub fn all_idle(&self) -> bool {
        self.sessions.iter().all(|record| record.phase == IDLE)
    }

    pub fn begin(&mut self, session: u8) -> Answer {
        if let Err(number) = self.judge(session, &[IDLE]) {
            return refuse(number);
        }
        self.sessions[session as usize] = Session { phase: RUNNING, count: 0, next: 0 };
        good(DONE)
    }

    pub fn read(&mut self, session: u8, cell: u32) -> Answer {
        let entries = match self.judge(session, &[RUNNING]) {
            Ok(entries) => entries,
            Err(number) => return refuse(number),
        };
        if cell as usize >= self.values.len() {
            return refuse(NO_SUCH_CELL);
        }
        match self.enter(session, cell, &entries) {
            Ok(at) => Answer { number: VALUE, value: self.logs[at + 2] },
            Err(number) => refuse(number),
        }
    }

    /// Hold: a read that marks the entry held. The written mark stays, higher bits go.
    pub fn hold(&mut self, session: u8, cell: u32) -> Answer {
        let answer = self.read(session, cell);
        if answer.number == VALUE {
            let entry = self.entries(session).find(cell).expect("a cell that was read is in the log");
            self.logs[entry.at + 3] = 2 + entry.dirty as u32;
        }
        answer
    }

    /// Many reads: what single reads in the list's order give, up to the first answer that is not 101.
    pub fn read_many(&mut self, session: u8, cells: &[u32], target: &mut [u32]) -> ManyAnswer {
        if cells.is_empty() || cells.len() > MAX_LIST {
            return ManyAnswer { number: WRONG_LIST, count: 0 };
        }
        if target.len() < cells.len() {
            return ManyAnswer { number: SHORT_TARGET, count: 0 };
        }
        let mut last = ManyAnswer { number: VALUE, count: 0 };
        for (cell, word) in cells.iter().zip(target) {
            let answer = self.read(session, *cell);
            last.number = answer.number;
            if answer.number != VALUE {
                break;
            }
            *word = answer.value;
            last.count += 1;
        }
        last
    }

    /// A write by this table, which need not pass.
    pub fn write(&mut self, session: u8, cell: u32, value: u32, table: Table) -> Answer {
        let caps = match self.caps_by(table) {
            Some(caps) => caps,
            None => return refuse(WRONG_LENGTH),
        };
        let entries = match self.judge(session, &[RUNNING]) {
            Ok(entries) => entries,
            Err(number) => return refuse(number),
        };
        if cell as usize >= self.values.len() {
            return refuse(NO_SUCH_CELL);
        }
        let class = self.classes[cell as usize];
        if class > MAX_CLASS {
            return refuse(BAD_CELL);
        }
        if value > caps[class as usize] {
            return refuse(OVER_CAP);
        }
        match self.enter(session, cell, &entries) {
            Ok(at) => {
                let held = self.logs[at + 3] / 2 % 2;
                self.logs[at + 2] = value;
                self.logs[at + 3] = 1 + 2 * held;
                good(DONE)
            }
            Err(number) => refuse(number),
        }
    }

    pub fn seal(&mut self, session: u8) -> Answer {
        let entries = match self.judge(session, &[RUNNING]) {
            Ok(entries) => entries,
            Err(number) => return refuse(number),
        };
        for entry in entries.counting().filter(|entry| !entry.publishes()) {
            self.leave(session, entry.cell);
        }
        if entries.lowest_publishing(0).is_none() {
            self.go_idle(session);
            return good(COMMITTED);
        }
        let record = &mut self.sessions[session as usize];
        record.phase = PROMOTING;
        record.next = 0;
        good(SEALED)
    }

    pub fn advance(&mut self, session: u8) -> Answer {
        let entries = match self.judge(session, &[PROMOTING, PUBLISHING, RELEASING]) {
            Ok(entries) => entries,
            Err(number) => return refuse(number),
        };
        let record = self.sessions[session as usize];
        let entry = entries.lowest_publishing(record.next as u32).expect("judged");
        let cell = entry.cell as usize;
        match record.phase {
            PROMOTING => {
                let claimant = self.claimants[cell];
                if claimant != NOBODY && claimant != session {
                    self.roll_back(session, &entries);
                    return refuse(CLAIMED);
                }
                self.claimants[cell] = session;
                let others = self.readers[cell] & !own_bit(session);
                if others.count_ones() > 0 {
                    return Answer { number: WAITING, value: others.count_ones() };
                }
                self.exclusives[cell] = 1;
            }
            PUBLISHING => self.values[cell] = entry.current,
            _ => {
                self.leave(session, entry.cell);
                self.claimants[cell] = NOBODY;
                self.exclusives[cell] = 0;
            }
        }
        self.handled(session, entry.cell, &entries)
    }

    pub fn abandon(&mut self, session: u8) -> Answer {
        match self.judge(session, &[RUNNING, PROMOTING]) {
            Ok(entries) => {
                self.roll_back(session, &entries);
                good(DONE)
            }
            Err(number) => refuse(number),
        }
    }

    /// Peek's twin: the number alone.
    pub fn peek_number(&self, session: u8, cell: u32) -> Answer {
        match self.peek_part(session, cell) {
            Ok(_) => good(DONE),
            Err(number) => refuse(number),
        }
    }

    /// Peek: a part one word long of the values or of the logs, empty where the twin refuses.
    pub fn peek(&self, session: u8, cell: u32) -> &[u32] {
        match self.peek_part(session, cell) {
            Ok(Part::Value(at)) => &self.values[at..at + 1],
            Ok(Part::Log(at)) => &self.logs[at..at + 1],
            _ => &[],
        }
    }

    /// Where the peeked word stands, or the refusal.
    pub fn peek_part(&self, session: u8, cell: u32) -> Result<Part, u32> {
        let entries = self.judge(session, &[RUNNING])?;
        if cell as usize >= self.values.len() {
            return Err(NO_SUCH_CELL);
        }
        match entries.find(cell) {
            None => Err(NOT_IN_LOG),
            Some(entry) if entry.dirty => Ok(Part::Log(entry.at + 2)),
            Some(_) => Ok(Part::Value(cell as usize)),
        }
    }

    pub fn lengths_fit(&self) -> bool {
        let n = self.values.len();
        (1..=MAX_CELLS).contains(&n)
            && self.classes.len() == n
            && self.readers.len() == n
            && self.claimants.len() == n
            && self.exclusives.len() == n
            && self.logs.len() == LOG_WORDS
    }

    /// Refusals 7, 1, 9 and 2, in this order; otherwise the session's entries.
    fn judge(&self, session: u8, phases: &[u8]) -> Result<Entries, u32> {
        let entries = self.sound_entries(session)?;
        let record = self.sessions[session as usize];
        if record.phase >= PROMOTING && entries.lowest_publishing(record.next as u32).is_none() {
            return Err(DAMAGED);
        }
        if !phases.contains(&record.phase) {
            return Err(WRONG_PHASE);
        }
        Ok(entries)
    }

    /// The record and the entries of the session that calls, where a call has one and neither 7, 1 nor 9 is due for them.
    pub fn caller(&self, call: Call) -> Option<(Session, Entries)> {
        let session = call.session()?;
        let entries = self.sound_entries(session).ok()?;
        Some((self.sessions[session as usize], entries))
    }

    /// Refusals 7, 1 and 9, this one without the cause that sealed sessions alone have; otherwise the session's entries. An idle session has none,
    /// whatever its count.
    pub fn sound_entries(&self, session: u8) -> Result<Entries, u32> {
        if !self.lengths_fit() {
            return Err(WRONG_LENGTH);
        }
        if session as usize >= SESSIONS {
            return Err(NO_SUCH_SESSION);
        }
        let record = self.sessions[session as usize];
        if record.phase > RELEASING {
            return Err(DAMAGED);
        }
        let mut entries = Entries(Vec::new());
        if record.phase != IDLE {
            if record.count as usize > MAX_ENTRIES {
                return Err(DAMAGED);
            }
            entries = self.entries(session);
            if entries.0.iter().any(|entry| entry.cell as usize >= self.values.len()) {
                return Err(DAMAGED);
            }
        }
        Ok(entries)
    }

    /// The session's entries as they stand in its log.
    fn entries(&self, session: u8) -> Entries {
        let count = self.sessions[session as usize].count as usize;
        let start = SESSION_WORDS * session as usize;
        let entry = |index: usize| {
            let at = start + ENTRY_WORDS * index;
            let words = &self.logs[at..at + ENTRY_WORDS];
            let (dirty, held) = (words[3] % 2 == 1, words[3] / 2 % 2 == 1);
            Entry { at, cell: words[0], snapshot: words[1], current: words[2], marks: words[3], dirty, held }
        };
        Entries((0..count).map(entry).collect())
    }

    /// The first word of the cell's entry; a new cell is locked and entered, or refused with 5 or 6.
    fn enter(&mut self, session: u8, cell: u32, entries: &Entries) -> Result<usize, u32> {
        if let Some(entry) = entries.find(cell) {
            return Ok(entry.at);
        }
        let count = entries.0.len();
        if count == MAX_ENTRIES {
            return Err(LOG_FULL);
        }
        if self.claimants[cell as usize] != NOBODY {
            self.roll_back(session, entries);
            return Err(CLAIMED);
        }
        self.readers[cell as usize] |= own_bit(session);
        let at = SESSION_WORDS * session as usize + ENTRY_WORDS * count;
        let value = self.values[cell as usize];
        self.logs[at..at + ENTRY_WORDS].copy_from_slice(&[cell, value, value, 0]);
        self.sessions[session as usize].count += 1;
        Ok(at)
    }

    /// The end of an advance that handled a cell.
    fn handled(&mut self, session: u8, cell: u32, entries: &Entries) -> Answer {
        let record = &mut self.sessions[session as usize];
        record.next = cell as u16 + 1;
        if entries.lowest_publishing(cell + 1).is_some() {
            return good(MOVED);
        }
        if record.phase == RELEASING {
            self.go_idle(session);
            return good(COMMITTED);
        }
        record.phase += 1;
        record.next = 0;
        good(MOVED)
    }

    fn roll_back(&mut self, session: u8, entries: &Entries) {
        for entry in &entries.0 {
            self.leave(session, entry.cell);
            if self.claimants[entry.cell as usize] == session {
                self.claimants[entry.cell as usize] = NOBODY;
                self.exclusives[entry.cell as usize] = 0;
            }
        }
        self.go_idle(session);
    }

    fn leave(&mut self, session: u8, cell: u32) {
        self.readers[cell as usize] &= !own_bit(session);
    }

    fn go_idle(&mut self, session: u8) {
        self.sessions[session as usize] = Session { phase: IDLE, count: 0, next: 0 };
    }
}

/// The session's bit in a reader set.
fn own_bit(session: u8) -> u16 {
    1 << session
}
