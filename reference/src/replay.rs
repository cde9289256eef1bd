//! The replay: document 01, 'Call fields', and document 02, Papers 4 and 6, from input bytes to the text it prints.

use crate::field::{self, Field};
use crate::store::{Answer, Buffers, Call, Table, VALUE, WAITING};
use std::fmt::Write;

/// The most bytes of input.
pub const MAX_INPUT: usize = 65_536;

/// The call of a field; a starting cell is none.
pub fn call_of(field: &Field) -> Option<Call> {
    let session = field.session;
    let cell = field.cell as u32;
    match field.tag {
        field::BEGIN => Some(Call::Begin { session }),
        field::READ => Some(Call::Read { session, cell }),
        field::HOLD => Some(Call::Hold { session, cell }),
        field::WRITE => Some(Call::Write { session, cell, value: field.value, table: Table::Ours }),
        field::SEAL => Some(Call::Seal { session }),
        field::ADVANCE => Some(Call::Advance { session }),
        field::ABANDON => Some(Call::Abandon { session }),
        _ => None,
    }
}

/// The whole text that the replay prints for an input.
pub fn replay(input: &[u8]) -> Vec<u8> {
    let mut out = String::new();
    if input.len() > MAX_INPUT {
        return b"size\n".to_vec();
    }
    let (mut buffers, mut place) = starting_cells(input);
    let set_up = buffers.set_up();
    if set_up.number != 100 {
        writeln!(out, "setup {}", set_up.number).unwrap();
        return out.into_bytes();
    }
    let mut ordinal = 0;
    loop {
        let reading = field::read_field(input, place);
        if reading.number == field::END {
            break;
        }
        if reading.number != field::GOOD {
            writeln!(out, "field {} {}", place, reading.number).unwrap();
            break;
        }
        let call = match call_of(&reading.field) {
            Some(call) => call,
            None => {
                writeln!(out, "field {} {}", place, field::UNKNOWN_TAG).unwrap();
                break;
            }
        };
        ordinal += 1;
        print_answer(&mut out, ordinal, buffers.call(call));
        place += reading.length;
    }
    for (cell, value) in buffers.values.iter().enumerate() {
        writeln!(out, "c {} {}", cell, value).unwrap();
    }
    out.into_bytes()
}

/// The buffers of the leading 08 fields, however many, and the place after them.
pub fn starting_cells(input: &[u8]) -> (Buffers, usize) {
    let mut values = Vec::new();
    let mut classes = Vec::new();
    let mut place = 0;
    loop {
        let reading = field::read_field(input, place);
        if reading.number != field::GOOD || reading.field.tag != field::CELL {
            return (Buffers::new(values, classes), place);
        }
        values.push(reading.field.value);
        classes.push(reading.field.class);
        place += reading.length;
    }
}

fn print_answer(out: &mut String, ordinal: u32, answer: Answer) {
    if [VALUE, WAITING].contains(&answer.number) {
        writeln!(out, "{} {} {}", ordinal, answer.number, answer.value).unwrap();
    } else {
        writeln!(out, "{} {}", ordinal, answer.number).unwrap();
    }
}
