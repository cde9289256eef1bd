//! Document 02, Paper 5: the set-ups and the writes on which a table of caps matters, by what is lent before them, and what they are counted as. Loads
//! are in `loads`.

use crate::arbitrary::Numbers;
use crate::caps::{only_first_cap_is_0, passes, unfit_place};
use crate::loads;
use crate::store::{
    Buffers, Call, Table, ABOVE_NEW_CAP, DONE, MAX_CLASS, OUR_CAPS, SESSIONS, TABLE_CAPS, UNFIT_CAPS, WRONG_PHASE,
};

/// A kind of calls: its name, whether one is of it, and the numbers that it must be seen to answer.
pub type Kind<Is> = (&'static str, Is, &'static [u32]);

/// The kinds of writes by the table in force that runs can meet.
const WRITES_IN_RUNS: [Kind<fn(&Write) -> bool>; 4] = [
    ("write, above our cap and within that in force", |write| write.value > write.ours && write.value <= write.cap, &[100]),
    ("write, within our cap and above that in force", |write| write.value <= write.ours && write.value > write.cap, &[4]),
    ("write, at the cap in force", |write| write.value == write.cap, &[100]),
    ("write, right above the cap in force", |write| write.value > 0 && write.value - 1 == write.cap, &[4]),
];

/// The kinds of calls by the table in force that no run meets, where its length or its caps are odd.
const BY_ODD_TABLES: [Kind<fn(&ByTable) -> bool>; 12] = [
    ("write by a table that does not pass", |call| call.writes && call.unfit(), &[4, 5, 6, 8, 100]),
    ("write by a table of another length alone", |call| call.writes && call.only_length_wrong(), &[7]),
    ("write of no session by a table of another length", |call| call.writes && call.no_session && call.only_length_wrong(), &[7]),
    ("set-up by a table of 15 caps alone", |call| !call.writes && call.only_length_wrong() && call.caps().len() == 15, &[7]),
    ("set-up by a table of 17 caps alone", |call| !call.writes && call.only_length_wrong() && call.caps().len() == 17, &[7]),
    ("set-up by an unfit table of another length", |call| !call.writes && call.only_length_wrong() && !passes(call.caps()), &[7]),
    ("set-up, only two caps equal", |call| call.sets_up_unfit(|place, caps| caps[place] == caps[place - 1]), &[16]),
    ("set-up, only the last cap not above the one before", |call| call.sets_up_unfit(|place, _| place == TABLE_CAPS - 1), &[16]),
    ("set-up, only the first cap 0", |call| !call.writes && call.only_first_cap_is_0(), &[16]),
    ("set-up, an unfit table and a cell for 8", |call| !call.writes && call.unfit() && call.bad_cell(), &[16]),
    (
        "set-up, a value above our cap and within that in force",
        |call| call.sets_up(|value, cap, ours| value > ours && value <= cap),
        &[100],
    ),
    (
        "set-up, a value within our cap and above that in force",
        |call| call.sets_up(|value, cap, ours| value <= ours && value > cap),
        &[8],
    ),
];

/// The kinds of writes after a load of the same run. The cap is the one in force; the other is that of the table
/// before, or of the refused one.
const WRITES_AFTER_A_LOAD: [Kind<fn(&AfterLoad) -> bool>; 6] = [
    ("write after a load, above the old cap", |write| write.number == DONE && write.is_between(write.other, write.cap), &[100]),
    ("write after a load, within the old cap", |write| write.number == DONE && write.is_between(write.cap, write.other), &[4]),
    (
        "write after a load with 17, above the refused cap",
        |write| write.above_new() && write.is_between(write.other, write.cap),
        &[100],
    ),
    (
        "write after a load with 17, within the refused cap",
        |write| write.above_new() && write.is_between(write.cap, write.other),
        &[4],
    ),
    (
        "write after a load with 2 or 16, above the refused cap",
        |write| write.refused() && write.is_between(write.other, write.cap),
        &[100],
    ),
    (
        "write after a load with 2 or 16, within the refused cap",
        |write| write.refused() && write.is_between(write.cap, write.other),
        &[4],
    ),
];

/// A write to a cell of a class up to 15 by a table of 16 caps.
struct Write {
    value: u32,
    cap: u32,
    ours: u32,
}

/// A write or a set-up by the table in force.
struct ByTable<'a> {
    buffers: &'a Buffers,
    writes: bool,
    no_session: bool,
}

impl ByTable<'_> {
    fn caps(&self) -> &[u32] {
        &self.buffers.caps
    }

    fn only_length_wrong(&self) -> bool {
        self.buffers.lengths_fit() && self.caps().len() != TABLE_CAPS
    }

    /// Whether the table has 16 caps, and does not pass.
    fn unfit(&self) -> bool {
        self.buffers.lengths_fit() && self.caps().len() == TABLE_CAPS && !passes(self.caps())
    }

    fn sets_up_unfit(&self, lies: fn(usize, &[u32]) -> bool) -> bool {
        !self.writes && self.unfit() && unfit_place(self.caps()).map_or(false, |place| lies(place, self.caps()))
    }

    fn only_first_cap_is_0(&self) -> bool {
        self.unfit() && only_first_cap_is_0(self.caps())
    }

    fn bad_cell(&self) -> bool {
        self.buffers.cells().any(|(class, value)| class > MAX_CLASS || value > self.caps()[class as usize])
    }

    /// A set-up by a table that passes, with a value that lies so to its cap in this table and to ours.
    fn sets_up(&self, lies: fn(u32, u32, u32) -> bool) -> bool {
        let wanted =
            |(class, value): (u8, u32)| class <= MAX_CLASS && lies(value, self.caps()[class as usize], OUR_CAPS[class as usize]);
        !self.writes && self.caps().len() == TABLE_CAPS && passes(self.caps()) && self.buffers.cells().any(wanted)
    }
}

/// A write after a load: its value, its cap, the cap of the other table, and what the load was answered.
struct AfterLoad {
    value: u32,
    cap: u32,
    other: u32,
    number: u32,
}

impl AfterLoad {
    fn is_between(&self, low: u32, high: u32) -> bool {
        low < self.value && self.value <= high
    }

    fn above_new(&self) -> bool {
        self.number == ABOVE_NEW_CAP
    }

    fn refused(&self) -> bool {
        matches!(self.number, WRONG_PHASE | UNFIT_CAPS)
    }
}

/// The last load of a run: the table of the two that is not in force after it, and its answer.
#[derive(Default)]
pub struct LastLoad {
    other: Vec<u32>,
    number: u32,
}

impl LastLoad {
    /// The load of a new table, with the table in force before it.
    pub fn new(old: Vec<u32>, new_caps: &[u32], number: u32) -> LastLoad {
        LastLoad { other: if number == DONE { old } else { new_caps.to_vec() }, number }
    }
}

/// The kinds that are met.
pub fn met<Is>(kinds: &[Kind<Is>], of: impl Fn(&Is) -> bool) -> Vec<&'static str> {
    kinds.iter().filter(|kind| of(&kind.1)).map(|kind| kind.0).collect()
}

/// The kinds that a call by the table in force is of, on the buffers as they are before it and after this load.
pub fn kinds(buffers: &Buffers, last: &LastLoad, call: Call) -> Vec<&'static str> {
    let writes = match call {
        Call::Write { table: Table::InForce, .. } => true,
        Call::SetUp { table: Table::InForce } => false,
        _ => return Vec::new(),
    };
    let no_session = call.session().map_or(false, |session| session as usize >= SESSIONS);
    let by_table = ByTable { buffers, writes, no_session };
    let odd = met(&BY_ODD_TABLES, |is| is(&by_table));
    [odd, kinds_of_write(buffers, last, call).unwrap_or_default()].concat()
}

fn kinds_of_write(buffers: &Buffers, last: &LastLoad, call: Call) -> Option<Vec<&'static str>> {
    let (cell, value) = match call {
        Call::Write { cell, value, .. } => (cell, value),
        _ => return None,
    };
    let class = *buffers.classes.get(cell as usize)? as usize;
    let cap = *buffers.caps_by(Table::InForce)?.get(class)?;
    let write = Write { value, cap, ours: OUR_CAPS[class] };
    let after = last.other.get(class).map(|other| AfterLoad { value, cap, other: *other, number: last.number });
    let after = after.map_or(Vec::new(), |after| met(&WRITES_AFTER_A_LOAD, |is| is(&after)));
    Some([met(&WRITES_IN_RUNS, |is| is(&write)), after].concat())
}

/// The kinds with numbers that they must be seen to answer and were not.
pub fn missing<Is>(numbers: &Numbers, kinds: &[Kind<Is>]) -> Vec<String> {
    kinds.iter().flat_map(|kind| numbers.missing(&[(kind.0, kind.2)])).collect()
}

/// What runs must meet and did not.
pub fn missing_in_runs(numbers: &Numbers) -> Vec<String> {
    let writes = [missing(numbers, &WRITES_IN_RUNS), missing(numbers, &WRITES_AFTER_A_LOAD)].concat();
    [loads::missing_in_runs(numbers), writes].concat()
}

/// What calls on arbitrary buffers must meet and did not.
pub fn missing_on_buffers(numbers: &Numbers) -> Vec<String> {
    let by_table = [missing(numbers, &WRITES_IN_RUNS), missing(numbers, &BY_ODD_TABLES)].concat();
    [loads::missing_on_buffers(numbers), by_table].concat()
}
