//! Document 02, Paper 5: the loads on which a mistake would show, by what is lent before them, and what they are counted as.

use crate::arbitrary::Numbers;
use crate::caps::{only_first_cap_is_0, passes, unfit_place};
use crate::own_caps::{met, missing, Kind};
use crate::store::{Buffers, IDLE, MAX_CLASS, RELEASING, SESSIONS, TABLE_CAPS};

/// A load of any kind.
pub const LOAD: &str = "load";

/// The kinds of loads that runs can meet.
const IN_RUNS: [Kind<fn(&Load) -> bool>; 18] = [
    ("load that lowers a cap", |load| load.differs(|old, new| new < old), &[17, 100]),
    ("load that raises a cap", |load| load.differs(|old, new| new > old), &[17, 100]),
    ("load of the table in force", |load| load.buffers.caps == load.new_caps, &[2, 100]),
    ("load, a value at its new cap", |load| load.cells(|value, cap| value == cap) > 0, &[17, 100]),
    ("load, a value right above its new cap", |load| load.cells(|value, cap| value > 0 && value - 1 == cap) > 0, &[17]),
    ("load, one value above its new cap", |load| load.cells(|value, cap| value > cap) == 1, &[17]),
    ("load, only the first value above its new cap", |load| load.only_above_is(0), &[17]),
    ("load, only the last value above its new cap", |load| load.only_above_is(load.last_cell()), &[17]),
    ("load, only two caps equal", |load| load.unfit_at(|place, caps| caps[place] == caps[place - 1]), &[16]),
    ("load, only one cap below the one before", |load| load.unfit_at(|place, caps| caps[place] < caps[place - 1]), &[16]),
    ("load, only the last cap not above the one before", |load| load.unfit_at(|place, _| place == TABLE_CAPS - 1), &[16]),
    ("load, only the second cap not above the first", |load| load.unfit_at(|place, _| place == 1), &[16]),
    ("load, only the first cap 0", |load| load.only_first_cap_is_0(), &[16]),
    ("load, only the new table shorter", |load| load.only_length_wrong(load.new_caps.len(), 15), &[7]),
    ("load, only the new table longer", |load| load.only_length_wrong(load.new_caps.len(), 17), &[7]),
    ("load, an unfit table of another length", |load| load.new_caps.len() != TABLE_CAPS && !passes(load.new_caps), &[7]),
    ("load, a session not idle and an unfit table", |load| load.lengths_fit() && load.busy() && !passes(load.new_caps), &[2]),
    (
        "load, a session not idle and a value above its new cap",
        |load| load.busy() && load.cells(|value, cap| value > cap) > 0,
        &[2],
    ),
];

/// The kinds of loads that no run meets: odd records, tables in force and classes.
const ON_BUFFERS: [Kind<fn(&Load) -> bool>; 18] = [
    ("load, only the table in force shorter", |load| load.only_length_wrong(load.buffers.caps.len(), 15), &[7]),
    ("load, only the table in force longer", |load| load.only_length_wrong(load.buffers.caps.len(), 17), &[7]),
    ("load, a table of another length and a session not idle", |load| !load.lengths_fit() && load.busy(), &[7]),
    ("load, only session 0 not idle", |load| load.only_busy_is(|session, _| session == 0), &[2]),
    ("load, only session 15 not idle", |load| load.only_busy_is(|session, _| session == SESSIONS - 1), &[2]),
    ("load, only a damaged phase not idle", |load| load.only_busy_is(|_, phase| phase > RELEASING), &[2]),
    ("load, only phase 128 not idle", |load| load.only_busy_is(|_, phase| phase == 128), &[2]),
    ("load, two equal phases not idle", |load| load.two_busy(|one, other| one == other), &[2]),
    ("load, two phases not idle that add up to 256", |load| load.two_busy(|one, other| one == other.wrapping_neg()), &[2]),
    ("load, an idle record with a count or a next", |load| load.odd_idle_record(), &[100]),
    ("load over a table that does not pass", |load| !passes(&load.buffers.caps), &[2, 8, 16, 17, 100]),
    ("load, a value above its cap in force and within the new one", |load| load.mends(), &[100]),
    (
        "load, an unfit table and a class above 15",
        |load| load.settled() && !passes(load.new_caps) && load.classes_above() > 0,
        &[16],
    ),
    ("load, an unfit table and a value above its new cap", |load| load.unfit_and_above(), &[16]),
    ("load, a class above 15 after a value above its new cap", |load| load.above_before_class(), &[8]),
    ("load, a value above its new cap after a class above 15", |load| load.class_before_above(), &[8]),
    ("load, only the first class above 15", |load| load.only_class_above_is(0), &[8]),
    ("load, only the last class above 15", |load| load.only_class_above_is(load.last_cell()), &[8]),
];

/// A load, and the buffers before it.
struct Load<'a> {
    buffers: &'a Buffers,
    new_caps: &'a [u32],
}

impl Load<'_> {
    fn lengths_fit(&self) -> bool {
        self.buffers.lengths_fit() && self.buffers.caps.len() == TABLE_CAPS && self.new_caps.len() == TABLE_CAPS
    }

    fn busy(&self) -> bool {
        !self.buffers.all_idle()
    }

    /// Whether the new table is what is judged next.
    fn settled(&self) -> bool {
        self.lengths_fit() && !self.busy()
    }

    /// Whether the two tables are 16 caps long, and a new cap lies so to the old one.
    fn differs(&self, lies: fn(u32, u32) -> bool) -> bool {
        self.settled() && self.buffers.caps.iter().zip(self.new_caps).any(|(old, new)| lies(*old, *new))
    }

    /// The cells whose class has a cap, where the lengths fit, and whose value lies so to the new one.
    fn places(&self, lies: fn(u32, u32) -> bool) -> Vec<usize> {
        let new_cap = |class: u8| self.new_caps.get(class as usize).copied();
        let wanted = |(class, value): (u8, u32)| self.lengths_fit() && new_cap(class).map_or(false, |cap| lies(value, cap));
        self.buffers.cells().enumerate().filter(|(_, cell)| wanted(*cell)).map(|(place, _)| place).collect()
    }

    fn cells(&self, lies: fn(u32, u32) -> bool) -> usize {
        self.places(lies).len()
    }

    fn last_cell(&self) -> usize {
        self.buffers.values.len().saturating_sub(1)
    }

    /// Whether of several cells this one alone has a value above its new cap.
    fn only_above_is(&self, place: usize) -> bool {
        self.settled() && self.buffers.values.len() > 1 && self.places(|value, cap| value > cap) == [place]
    }

    fn unfit_at(&self, lies: fn(usize, &[u32]) -> bool) -> bool {
        self.settled() && unfit_place(self.new_caps).map_or(false, |place| lies(place, self.new_caps))
    }

    fn only_first_cap_is_0(&self) -> bool {
        self.settled() && only_first_cap_is_0(self.new_caps)
    }

    /// Whether this length is as wanted, and a load would be answered 100 but for it.
    fn only_length_wrong(&self, length: usize, wanted: usize) -> bool {
        let others = [self.buffers.caps.len(), self.new_caps.len()].iter().filter(|length| **length != TABLE_CAPS).count() == 1;
        let rest = self.buffers.lengths_fit() && !self.busy() && passes(self.new_caps);
        length == wanted && others && rest && self.classes_above() == 0
    }

    /// The sessions that are not idle, with their phases.
    fn busy_sessions(&self) -> Vec<(usize, u8)> {
        let sessions = self.buffers.sessions.iter().map(|record| record.phase).enumerate();
        sessions.filter(|(_, phase)| *phase != IDLE).collect()
    }

    /// Whether a load would be answered 100 if every session were idle.
    fn fits_but_for_phases(&self) -> bool {
        let table = self.lengths_fit() && passes(self.new_caps);
        table && self.classes_above() == 0 && self.cells(|value, cap| value > cap) == 0
    }

    fn only_busy_is(&self, wanted: fn(usize, u8) -> bool) -> bool {
        self.fits_but_for_phases() && matches!(self.busy_sessions()[..], [(session, phase)] if wanted(session, phase))
    }

    fn two_busy(&self, wanted: fn(u8, u8) -> bool) -> bool {
        self.fits_but_for_phases() && matches!(self.busy_sessions()[..], [(_, one), (_, other)] if wanted(one, other))
    }

    fn odd_idle_record(&self) -> bool {
        self.settled() && self.buffers.sessions.iter().any(|record| record.count > 0 || record.next > 0)
    }

    fn mends(&self) -> bool {
        let mended = |(class, value): (u8, u32)| class <= MAX_CLASS && value > self.buffers.caps[class as usize];
        self.settled() && self.buffers.cells().any(mended)
    }

    fn classes_above(&self) -> usize {
        self.buffers.classes.iter().filter(|class| **class > MAX_CLASS).count()
    }

    fn unfit_and_above(&self) -> bool {
        self.settled() && !passes(self.new_caps) && self.classes_above() == 0 && self.cells(|value, cap| value > cap) > 0
    }

    /// The first cell with a class above 15, and the first with a value above its new cap.
    fn first_faults(&self) -> (Option<usize>, Option<usize>) {
        let class = self.buffers.classes.iter().position(|class| *class > MAX_CLASS);
        (class.filter(|_| self.settled()), self.places(|value, cap| value > cap).first().copied())
    }

    fn above_before_class(&self) -> bool {
        matches!(self.first_faults(), (Some(class), Some(above)) if above < class)
    }

    fn class_before_above(&self) -> bool {
        matches!(self.first_faults(), (Some(class), Some(above)) if class < above)
    }

    /// Whether of several cells this one alone has a class above 15.
    fn only_class_above_is(&self, place: usize) -> bool {
        self.settled() && self.buffers.classes.len() > 1 && self.classes_above() == 1 && self.buffers.classes[place] > MAX_CLASS
    }
}

/// The kinds that a load is of, on the buffers as they are before it.
pub fn kinds(buffers: &Buffers, new_caps: &[u32]) -> Vec<&'static str> {
    let load = Load { buffers, new_caps };
    [met(&IN_RUNS, |is| is(&load)), met(&ON_BUFFERS, |is| is(&load))].concat()
}

/// What runs must meet and did not.
pub fn missing_in_runs(numbers: &Numbers) -> Vec<String> {
    missing(numbers, &IN_RUNS)
}

/// What calls on arbitrary buffers must meet and did not.
pub fn missing_on_buffers(numbers: &Numbers) -> Vec<String> {
    [missing_in_runs(numbers), missing(numbers, &ON_BUFFERS)].concat()
}
