//! What the tests share: a store that is set up, and short names for calls.
#![allow(dead_code)]

use reference::store::{Answer, Buffers, Call, ManyAnswer, Session, Table};

/// A store of these classes and values, set up.
pub fn store(cells: &[(u8, u32)]) -> Buffers {
    let mut buffers = Buffers::new(cells.iter().map(|cell| cell.1).collect(), cells.iter().map(|cell| cell.0).collect());
    assert_eq!(buffers.set_up(), number(100));
    buffers
}

/// A store of `n` cells of class 2 with value 3, set up.
pub fn store_of(n: usize) -> Buffers {
    store(&vec![(2, 3); n])
}

/// Session 3 in this phase with these entries (cell, snapshot value, current value, marks) in a store of three cells.
pub fn entered(phase: u8, entries: &[[u32; 4]]) -> Buffers {
    let mut buffers = store_of(3);
    buffers.sessions[3] = Session { phase, count: entries.len() as u8, next: 0 };
    for (index, entry) in entries.iter().enumerate() {
        buffers.logs[128 * 3 + 4 * index..128 * 3 + 4 * index + 4].copy_from_slice(entry);
    }
    buffers
}

/// Asserts that every call of session 3 but set-up gets this refusal and leaves everything as before.
pub fn all_refused(buffers: &Buffers, refusal: u32) {
    for call in [begin(3), read(3, 0), hold(3, 0), write(3, 0, 1), write_by(3, 0, 1), seal(3), advance(3), abandon(3), peek(3, 0)]
    {
        let mut after = buffers.clone();
        assert_eq!(after.call(call), number(refusal), "{:?}", call);
        assert_eq!(&after, buffers, "{:?}", call);
    }
}

/// The answer with this number and value 0.
pub fn number(number: u32) -> Answer {
    Answer { number, value: 0 }
}

pub fn value(value: u32) -> Answer {
    Answer { number: 101, value }
}

/// A wait for so many other readers.
pub fn waiting(others: u32) -> Answer {
    Answer { number: 104, value: others }
}

/// Runs calls, each with the number and the value that it must answer.
pub fn run(buffers: &mut Buffers, calls: &[(Call, Answer)]) {
    for (index, (call, answer)) in calls.iter().enumerate() {
        assert_eq!(buffers.call(*call), *answer, "call {} of the list, {:?}", index + 1, call);
    }
}

/// A target as it is lent: words 90, 91 and on.
pub fn lent_target(len: usize) -> Vec<u32> {
    (90..).take(len).collect()
}

/// Many reads with a target of this length: the number, the count and the target afterwards.
pub fn read_many(buffers: &mut Buffers, session: u8, cells: &[u32], target_len: usize) -> (u32, u32, Vec<u32>) {
    let mut target = lent_target(target_len);
    let ManyAnswer { number, count } = buffers.read_many(session, cells, &mut target);
    (number, count, target)
}

pub fn begin(session: u8) -> Call {
    Call::Begin { session }
}

pub fn read(session: u8, cell: u32) -> Call {
    Call::Read { session, cell }
}

pub fn hold(session: u8, cell: u32) -> Call {
    Call::Hold { session, cell }
}

pub fn write(session: u8, cell: u32, value: u32) -> Call {
    Call::Write { session, cell, value, table: Table::Ours }
}

/// A write by the table of caps in force.
pub fn write_by(session: u8, cell: u32, value: u32) -> Call {
    Call::Write { session, cell, value, table: Table::InForce }
}

pub fn seal(session: u8) -> Call {
    Call::Seal { session }
}

pub fn advance(session: u8) -> Call {
    Call::Advance { session }
}

pub fn abandon(session: u8) -> Call {
    Call::Abandon { session }
}

pub fn peek(session: u8, cell: u32) -> Call {
    Call::Peek { session, cell }
}
