//! The plain C store and the plain C fields behind the boundary, through the C calling convention; or the proved ones, where the library that
//! is loaded has those. Each tells its name.

use std::ffi::{c_char, CStr};

use crate::boundary::{located, Fields, Store};
use crate::field::{Field, Reading};
use crate::store::{Answer, Buffers, Call, ManyAnswer, ManyReads, Part, Session, Table, SESSIONS};

/// The layout of `plain_lent`: each run with its length.
#[repr(C)]
struct Lent {
    values: *mut u32,
    values_len: usize,
    classes: *const u8,
    classes_len: usize,
    readers: *mut u16,
    readers_len: usize,
    claimants: *mut u8,
    claimants_len: usize,
    exclusives: *mut u8,
    exclusives_len: usize,
    logs: *mut u32,
    logs_len: usize,
}

#[repr(C)]
#[derive(Clone, Copy)]
struct Record {
    phase: u8,
    count: u8,
    next: u16,
}

#[repr(C)]
struct CAnswer {
    number: u32,
    value: u32,
}

#[repr(C)]
struct CManyAnswer {
    number: u32,
    count: u32,
}

#[repr(C)]
struct CPart {
    words: *const u32,
    len: usize,
}

#[repr(C)]
#[derive(Clone, Copy)]
struct CField {
    tag: u8,
    session: u8,
    cell: u16,
    class: u8,
    value: u32,
}

#[repr(C)]
struct CReading {
    number: u32,
    length: usize,
    field: CField,
}

#[repr(C)]
struct CWriting {
    number: u32,
    length: usize,
}

extern "C" {
    fn store_name() -> *const c_char;
    fn fields_name() -> *const c_char;
    fn plain_set_up(lent: *const Lent, sessions: *mut Record) -> CAnswer;
    fn plain_set_up_with_caps(lent: *const Lent, sessions: *mut Record, caps: *const u32, caps_len: usize) -> CAnswer;
    fn plain_begin(lent: *const Lent, sessions: *mut Record, session: u8) -> CAnswer;
    fn plain_read(lent: *const Lent, sessions: *mut Record, session: u8, cell: u32) -> CAnswer;
    fn plain_hold(lent: *const Lent, sessions: *mut Record, session: u8, cell: u32) -> CAnswer;
    fn plain_read_many(
        lent: *const Lent,
        sessions: *mut Record,
        session: u8,
        cells: *const u32,
        cells_len: usize,
        target: *mut u32,
        target_len: usize,
    ) -> CManyAnswer;
    fn plain_write(lent: *const Lent, sessions: *mut Record, session: u8, cell: u32, value: u32) -> CAnswer;
    fn plain_write_with_caps(
        lent: *const Lent,
        sessions: *mut Record,
        caps: *const u32,
        caps_len: usize,
        session: u8,
        cell: u32,
        value: u32,
    ) -> CAnswer;
    fn plain_load_caps(
        lent: *const Lent,
        sessions: *mut Record,
        caps: *mut u32,
        caps_len: usize,
        new_caps: *const u32,
        new_caps_len: usize,
    ) -> CAnswer;
    fn plain_seal(lent: *const Lent, sessions: *mut Record, session: u8) -> CAnswer;
    fn plain_advance(lent: *const Lent, sessions: *mut Record, session: u8) -> CAnswer;
    fn plain_abandon(lent: *const Lent, sessions: *mut Record, session: u8) -> CAnswer;
    fn plain_peek_number(lent: *const Lent, sessions: *const Record, session: u8, cell: u32) -> CAnswer;
    fn plain_peek(lent: *const Lent, sessions: *const Record, session: u8, cell: u32) -> CPart;
    fn read_field(bytes: *const u8, len: usize, place: usize) -> CReading;
    fn write_field(target: *mut u8, len: usize, field: CField) -> CWriting;
}

/// The text behind a pointer to a constant string of C.
fn text(pointer: *const c_char) -> String {
    // SAFETY: `store_name` and `fields_name` give constant strings that end with a zero byte.
    unsafe { CStr::from_ptr(pointer) }.to_string_lossy().into_owned()
}

/// The buffers as C takes them, as long as the vectors live and stay as long as they are.
fn lent(buffers: &mut Buffers) -> Lent {
    Lent {
        values: buffers.values.as_mut_ptr(),
        values_len: buffers.values.len(),
        classes: buffers.classes.as_ptr(),
        classes_len: buffers.classes.len(),
        readers: buffers.readers.as_mut_ptr(),
        readers_len: buffers.readers.len(),
        claimants: buffers.claimants.as_mut_ptr(),
        claimants_len: buffers.claimants.len(),
        exclusives: buffers.exclusives.as_mut_ptr(),
        exclusives_len: buffers.exclusives.len(),
        logs: buffers.logs.as_mut_ptr(),
        logs_len: buffers.logs.len(),
    }
}

fn records(buffers: &Buffers) -> [Record; SESSIONS] {
    buffers.sessions.map(|Session { phase, count, next }| Record { phase, count, next })
}

fn sessions(records: [Record; SESSIONS]) -> [Session; SESSIONS] {
    records.map(|Record { phase, count, next }| Session { phase, count, next })
}

pub struct Plain;

impl Store for Plain {
    fn name(&self) -> String {
        // SAFETY: the function takes nothing and changes nothing.
        text(unsafe { store_name() })
    }

    fn call(&mut self, buffers: &mut Buffers, call: Call) -> (Answer, Part) {
        let mut records = records(buffers);
        let lent = lent(buffers);
        let (caps, caps_len) = (buffers.caps.as_mut_ptr(), buffers.caps.len());
        let all = records.as_mut_ptr();
        let mut part = Part::Empty;
        // SAFETY: the pointers and lengths are those of live vectors, and the sixteen records are behind `all`.
        let answer = unsafe {
            match call {
                Call::SetUp { table: Table::Ours } => plain_set_up(&lent, all),
                Call::SetUp { table: Table::InForce } => plain_set_up_with_caps(&lent, all, caps, caps_len),
                Call::Begin { session } => plain_begin(&lent, all, session),
                Call::Read { session, cell } => plain_read(&lent, all, session, cell),
                Call::Hold { session, cell } => plain_hold(&lent, all, session, cell),
                Call::Write { session, cell, value, table: Table::Ours } => plain_write(&lent, all, session, cell, value),
                Call::Write { session, cell, value, table: Table::InForce } => {
                    plain_write_with_caps(&lent, all, caps, caps_len, session, cell, value)
                }
                Call::Seal { session } => plain_seal(&lent, all, session),
                Call::Advance { session } => plain_advance(&lent, all, session),
                Call::Abandon { session } => plain_abandon(&lent, all, session),
                Call::Peek { session, cell } => {
                    let handed = plain_peek(&lent, all, session, cell);
                    if handed.len > 0 {
                        part = located(buffers, std::slice::from_raw_parts(handed.words, handed.len));
                    }
                    plain_peek_number(&lent, all, session, cell)
                }
            }
        };
        buffers.sessions = sessions(records);
        (Answer { number: answer.number, value: answer.value }, part)
    }

    fn read_many(&mut self, buffers: &mut Buffers, many: &mut ManyReads) -> ManyAnswer {
        let mut records = records(buffers);
        let lent = lent(buffers);
        let (cells, words) = (&many.cells, &mut many.words);
        // SAFETY: the pointers and lengths are those of live vectors; the target is a part of the words.
        let answer = unsafe {
            plain_read_many(&lent, records.as_mut_ptr(), many.session, cells.as_ptr(), cells.len(), words.as_mut_ptr(), many.lent)
        };
        buffers.sessions = sessions(records);
        ManyAnswer { number: answer.number, count: answer.count }
    }

    fn load_caps(&mut self, buffers: &mut Buffers, new_caps: &mut [u32]) -> Answer {
        let mut records = records(buffers);
        let lent = lent(buffers);
        let (caps, caps_len) = (buffers.caps.as_mut_ptr(), buffers.caps.len());
        // SAFETY: the pointers and lengths are those of live vectors and of the slice, and the sixteen records are behind the first.
        let answer =
            unsafe { plain_load_caps(&lent, records.as_mut_ptr(), caps, caps_len, new_caps.as_mut_ptr(), new_caps.len()) };
        buffers.sessions = sessions(records);
        Answer { number: answer.number, value: answer.value }
    }
}

impl Fields for Plain {
    fn name(&self) -> String {
        // SAFETY: the function takes nothing and changes nothing.
        text(unsafe { fields_name() })
    }

    fn read(&mut self, bytes: &[u8], place: usize) -> Reading {
        // SAFETY: the pointer and the length are those of the slice.
        let reading = unsafe { read_field(bytes.as_ptr(), bytes.len(), place) };
        let CField { tag, session, cell, class, value } = reading.field;
        Reading { number: reading.number, place, length: reading.length, field: Field { tag, session, cell, class, value } }
    }

    fn write(&mut self, target: &mut [u8], field: &Field) -> (u32, usize) {
        let Field { tag, session, cell, class, value } = *field;
        // SAFETY: the pointer and the length are those of the slice.
        let writing = unsafe { write_field(target.as_mut_ptr(), target.len(), CField { tag, session, cell, class, value }) };
        (writing.number, writing.length)
    }
}
