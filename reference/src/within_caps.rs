//! Document 02, Paper 5: what holds of every value in a run whose writes go by the table of caps in force.

use crate::store::{Answer, Buffers, Call, Caps, Entry, Table, SESSIONS, VALUE};

/// The first value above its cell's cap in the table in force, told: of the store, or of a written entry of a session that is not idle. In a run
/// whose writes go by that table there is none.
pub fn above_its_cap(buffers: &Buffers) -> Option<String> {
    let caps = match buffers.caps_by(Table::InForce) {
        Some(caps) => caps,
        None => return Some("the table in force has not 16 caps".to_string()),
    };
    let stored = buffers.cells().position(|(class, value)| value > caps[class as usize]);
    let logged = (0..SESSIONS as u8).find_map(|session| {
        let entries = buffers.sound_entries(session).ok()?;
        entries.0.into_iter().find(|entry| entry.dirty && is_above(buffers, &caps, entry)).map(|entry| (session, entry.cell))
    });
    let told = stored.map(|cell| format!("cell {}: its value is above its cap", cell));
    told.or(logged.map(|(session, cell)| format!("session {} has written cell {} above its cap", session, cell)))
}

fn is_above(buffers: &Buffers, caps: &Caps, entry: &Entry) -> bool {
    entry.current > caps[buffers.classes[entry.cell as usize] as usize]
}

/// Whether a value that was got of a cell is within the cap in force.
pub fn is_within(buffers: &Buffers, cell: u32, value: u32) -> bool {
    buffers.caps_by(Table::InForce).map_or(false, |caps| value <= caps[buffers.classes[cell as usize] as usize])
}

/// The value that a call got of a cell.
pub fn got(call: Call, answer: Answer) -> Option<(u32, u32)> {
    match call {
        Call::Read { cell, .. } | Call::Hold { cell, .. } if answer.number == VALUE => Some((cell, answer.value)),
        _ => None,
    }
}
