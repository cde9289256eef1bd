//! What the caller lends, the session records, the calls and their answers: document 01, 'What the caller lends' and the numbers, and
//! document 02, Papers 1, 4, 5 and 6.

/// The number of sessions.
pub const SESSIONS: usize = 16;
/// The most cells a store has.
pub const MAX_CELLS: usize = 1024;
/// The most entries in one session's log.
pub const MAX_ENTRIES: usize = 32;
/// Words of one entry: cell, snapshot value (figure found), current value (present figure), marks: 1 for dirty (written) and 2 for held.
pub const ENTRY_WORDS: usize = 4;
/// Words of one session's log.
pub const SESSION_WORDS: usize = 128;
/// Words of all logs.
pub const LOG_WORDS: usize = 2048;
/// The most cells in the list of many reads.
pub const MAX_LIST: usize = 32;
/// The claimant byte that is nobody.
pub const NOBODY: u8 = 16;
/// The highest class.
pub const MAX_CLASS: u8 = 15;
/// The caps of a table, one for each class.
pub const TABLE_CAPS: usize = 16;

/// The caps of a table.
pub type Caps = [u32; TABLE_CAPS];

/// Document 01's table: the cap of each class for whoever lends none.
pub const OUR_CAPS: Caps = [1, 6, 8, 10, 12, 15, 18, 21, 24, 27, 30, 36, 42, 48, 60, 4_294_967_295];

pub const IDLE: u8 = 0;
pub const RUNNING: u8 = 1;
pub const PROMOTING: u8 = 2;
pub const PUBLISHING: u8 = 3;
pub const RELEASING: u8 = 4;

pub const NO_SUCH_SESSION: u32 = 1;
pub const WRONG_PHASE: u32 = 2;
pub const NO_SUCH_CELL: u32 = 3;
pub const OVER_CAP: u32 = 4;
pub const LOG_FULL: u32 = 5;
pub const CLAIMED: u32 = 6;
pub const WRONG_LENGTH: u32 = 7;
pub const BAD_CELL: u32 = 8;
pub const DAMAGED: u32 = 9;
pub const SHORT_TARGET: u32 = 13;
pub const NOT_IN_LOG: u32 = 14;
pub const WRONG_LIST: u32 = 15;
pub const UNFIT_CAPS: u32 = 16;
pub const ABOVE_NEW_CAP: u32 = 17;

pub const DONE: u32 = 100;
pub const VALUE: u32 = 101;
pub const SEALED: u32 = 102;
pub const MOVED: u32 = 103;
pub const WAITING: u32 = 104;
pub const COMMITTED: u32 = 105;

/// A session's record; any values may come in.
#[derive(Clone, Copy, Debug, Default, PartialEq, Eq)]
pub struct Session {
    pub phase: u8,
    pub count: u8,
    pub next: u16,
}

/// What a call returns: document 01's number, and a value (figure): what was read with 101, the number of other readers with 104, and else 0.
#[derive(Clone, Copy, Debug, PartialEq, Eq)]
pub struct Answer {
    pub number: u32,
    pub value: u32,
}

/// What many reads return: the last answer's number, and how many values they got.
#[derive(Clone, Copy, Debug, PartialEq, Eq)]
pub struct ManyAnswer {
    pub number: u32,
    pub count: u32,
}

/// The part that a peek hands back, as the index of its word in the values or in all the logs.
#[derive(Clone, Copy, Debug, PartialEq, Eq)]
pub enum Part {
    Empty,
    Value(usize),
    Log(usize),
}

/// The table that a call goes by: document 01's, or the one in force, which is lent.
#[derive(Clone, Copy, Debug, PartialEq, Eq)]
pub enum Table {
    Ours,
    InForce,
}

/// One call on the store.
#[derive(Clone, Copy, Debug, PartialEq, Eq)]
pub enum Call {
    SetUp { table: Table },
    Begin { session: u8 },
    Read { session: u8, cell: u32 },
    Hold { session: u8, cell: u32 },
    Write { session: u8, cell: u32, value: u32, table: Table },
    Seal { session: u8 },
    Advance { session: u8 },
    Abandon { session: u8 },
    Peek { session: u8, cell: u32 },
}

impl Call {
    /// The session that calls, but at set-up.
    pub fn session(self) -> Option<u8> {
        match self {
            Call::SetUp { .. } => None,
            Call::Begin { session } | Call::Seal { session } | Call::Advance { session } | Call::Abandon { session } => {
                Some(session)
            }
            Call::Read { session, .. } | Call::Hold { session, .. } => Some(session),
            Call::Write { session, .. } | Call::Peek { session, .. } => Some(session),
        }
    }
}

/// Many reads in one call. Its target is the first `lent` of the words: what comes after them is not lent, and must stay.
#[derive(Clone, Debug, PartialEq, Eq)]
pub struct ManyReads {
    pub session: u8,
    pub cells: Vec<u32>,
    pub words: Vec<u32>,
    pub lent: usize,
}

impl ManyReads {
    pub fn target(&mut self) -> &mut [u32] {
        &mut self.words[..self.lent]
    }
}

/// What the caller lends, and the sixteen records. Lock records lie in three runs, each with a length of its own.
#[derive(Clone, Debug, PartialEq, Eq)]
pub struct Buffers {
    pub values: Vec<u32>,
    pub classes: Vec<u8>,
    pub readers: Vec<u16>,
    pub claimants: Vec<u8>,
    pub exclusives: Vec<u8>,
    pub logs: Vec<u32>,
    /// The table of caps in force.
    pub caps: Vec<u32>,
    pub sessions: [Session; SESSIONS],
}

impl Buffers {
    /// Buffers of the right lengths for these values and classes, with empty logs, idle sessions and document 01's caps in force; set-up is still
    /// due.
    pub fn new(values: Vec<u32>, classes: Vec<u8>) -> Buffers {
        let n = values.len();
        Buffers {
            values,
            classes,
            readers: vec![0; n],
            claimants: vec![NOBODY; n],
            exclusives: vec![0; n],
            logs: vec![0; LOG_WORDS],
            caps: OUR_CAPS.to_vec(),
            sessions: [Session::default(); SESSIONS],
        }
    }

    /// The caps that a call by this table goes by, where they are 16.
    pub fn caps_by(&self, table: Table) -> Option<Caps> {
        match table {
            Table::Ours => Some(OUR_CAPS),
            Table::InForce => self.caps.as_slice().try_into().ok(),
        }
    }

    /// The cells, each with its class and its value.
    pub fn cells(&self) -> impl Iterator<Item = (u8, u32)> + '_ {
        self.classes.iter().copied().zip(self.values.iter().copied())
    }

    /// The value that a session's first entry for a cell found, or else the store's: what a write of it puts back. Of any contents and lengths.
    pub fn found(&self, session: u8, cell: u32) -> Option<u32> {
        let log = self.logs.get(SESSION_WORDS * session as usize..).unwrap_or(&[]);
        let count = self.sessions.get(session as usize).map_or(0, |record| record.count as usize).min(MAX_ENTRIES);
        let entry = log.chunks_exact(ENTRY_WORDS).take(count).find(|entry| entry[0] == cell);
        entry.map(|entry| entry[1]).or(self.values.get(cell as usize).copied())
    }
}
