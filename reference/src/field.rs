//! The call fields: document 01, 'Call fields' and the rows 10 to 13 of 'When a call is turned down', and the tag of document 02, Paper 4.

pub const BEGIN: u8 = 0x01;
pub const READ: u8 = 0x02;
pub const WRITE: u8 = 0x03;
pub const SEAL: u8 = 0x04;
pub const ADVANCE: u8 = 0x05;
pub const ABANDON: u8 = 0x06;
pub const CELL: u8 = 0x08;
pub const HOLD: u8 = 0x09;

pub const GOOD: u32 = 100;
pub const CUT_SHORT: u32 = 10;
pub const UNKNOWN_TAG: u32 = 11;
pub const WRONG_BODY: u32 = 12;
pub const SHORT_TARGET: u32 = 13;
pub const END: u32 = 106;

/// Bytes of a tag and a length.
pub const HEAD: usize = 3;

/// A field's numbers; those its tag does not carry are 0 when read and ignored when written.
#[derive(Clone, Copy, Debug, Default, PartialEq, Eq)]
pub struct Field {
    pub tag: u8,
    pub session: u8,
    pub cell: u16,
    pub class: u8,
    pub value: u32,
}

/// What reading at a place gives: the number, the place, and with 100 the field and its length in bytes.
#[derive(Clone, Copy, Debug, PartialEq, Eq)]
pub struct Reading {
    pub number: u32,
    pub place: usize,
    pub length: usize,
    pub field: Field,
}

/// The body's own length for a tag.
pub fn body_length(tag: u8) -> Option<usize> {
    match tag {
        BEGIN | SEAL | ADVANCE | ABANDON => Some(1),
        READ | HOLD => Some(3),
        WRITE => Some(7),
        CELL => Some(5),
        _ => None,
    }
}

/// Whether a tag's field carries a cell's number.
pub fn has_cell(tag: u8) -> bool {
    matches!(tag, READ | HOLD | WRITE)
}

/// Reads the field whose first byte is at `place`; past the last byte there is none.
pub fn read_field(bytes: &[u8], place: usize) -> Reading {
    let refuse = |number| Reading { number, place, length: 0, field: Field::default() };
    let rest = bytes.get(place..).unwrap_or(&[]);
    if rest.is_empty() {
        return refuse(END);
    }
    if rest.len() < HEAD {
        return refuse(CUT_SHORT);
    }
    let tag = rest[0];
    let own = match body_length(tag) {
        Some(own) => own,
        None => return refuse(UNKNOWN_TAG),
    };
    if u16::from_le_bytes([rest[1], rest[2]]) as usize != own {
        return refuse(WRONG_BODY);
    }
    if rest.len() < HEAD + own {
        return refuse(CUT_SHORT);
    }
    let body = &rest[HEAD..HEAD + own];
    let mut field = Field { tag, ..Field::default() };
    if tag == CELL {
        field.class = body[0];
    } else {
        field.session = body[0];
    }
    if has_cell(tag) {
        field.cell = u16::from_le_bytes([body[1], body[2]]);
    }
    if tag == WRITE || tag == CELL {
        let last = &body[own - 4..];
        field.value = u32::from_le_bytes([last[0], last[1], last[2], last[3]]);
    }
    Reading { number: GOOD, place, length: HEAD + own, field }
}

/// Writes one field at the start of the target: the number, and the field's length or 0.
pub fn write_field(target: &mut [u8], field: &Field) -> (u32, usize) {
    let mut bytes = vec![field.tag];
    let own = match body_length(field.tag) {
        Some(own) => own,
        None => return (UNKNOWN_TAG, 0),
    };
    bytes.extend_from_slice(&(own as u16).to_le_bytes());
    bytes.push(if field.tag == CELL { field.class } else { field.session });
    if has_cell(field.tag) {
        bytes.extend_from_slice(&field.cell.to_le_bytes());
    }
    if field.tag == WRITE || field.tag == CELL {
        bytes.extend_from_slice(&field.value.to_le_bytes());
    }
    if target.len() < bytes.len() {
        return (SHORT_TARGET, 0);
    }
    target[..bytes.len()].copy_from_slice(&bytes);
    (GOOD, bytes.len())
}

/// Appends one field of a known tag.
pub fn append(bytes: &mut Vec<u8>, field: &Field) {
    let mut target = [0; 16];
    let (number, length) = write_field(&mut target, field);
    assert_eq!(number, GOOD, "a field of tag {}", field.tag);
    bytes.extend_from_slice(&target[..length]);
}
