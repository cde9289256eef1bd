//! Random inputs of the replay: whole files, damaged files and files at the limits. A store runs along while a file is made,
//! so that calls that fit the phase, conflicts on few cells, waits and full logs are frequent.

use crate::field::{self, append, Field};
use crate::random::Random;
use crate::replay::{call_of, MAX_INPUT};
use crate::store::{Buffers, IDLE, NOBODY, OUR_CAPS, PROMOTING, RUNNING, SESSIONS};

/// How the calls of one file or run are chosen.
pub struct Shape {
    pub sessions: usize,
    pub hot: usize,
    /// Read new cells one after the other, so that logs fill up.
    pub sweeping: bool,
    /// Of a hundred writes, those that put back the value found.
    pub back: usize,
    /// Of a hundred reads, those that hold.
    pub held: usize,
    /// Go by a table of the caller's own, with loads between; a replay has none.
    pub own_caps: bool,
    /// Bring all sessions to one cell.
    pub crowd: Option<Crowd>,
}

/// Again and again all sessions enter one cell, some of them seal, and then one advances and is told to wait.
pub struct Crowd {
    cell: u16,
    /// How many seal before the first advances.
    sealed: usize,
}

/// The input of one case.
pub fn input(random: &Random) -> Vec<u8> {
    match random.weighted(&[700, 30, 20, 4, 200, 20, 6, 6]) {
        0 => whole(random),
        1 => refused_cells(random),
        2 => (0..random.below(40)).map(|_| random.byte()).collect(),
        3 => too_many_cells(random),
        4 => damaged(random),
        5 => Vec::new(),
        6 => at_the_limit(random),
        _ => too_long(random),
    }
}

/// A file of good fields.
fn whole(random: &Random) -> Vec<u8> {
    let calls = match random.weighted(&[40, 45, 14, 1]) {
        0 => random.range(0, 30),
        1 => random.range(30, 120),
        2 => random.range(120, 500),
        _ => random.range(500, 6000),
    };
    let mut bytes = Vec::new();
    fill(random, &mut bytes, |made, _| made < calls);
    bytes
}

/// Appends starting cells and then good calls, as long as more are wanted for this many calls and bytes.
fn fill(random: &Random, bytes: &mut Vec<u8>, more: impl Fn(usize, usize) -> bool) {
    let (shape, mut buffers) = set_up(random, bytes);
    let mut made = 0;
    while more(made, bytes.len()) {
        let field = next_call(random, &shape, &buffers);
        if let Some(call) = call_of(&field) {
            buffers.call(call);
        }
        append(bytes, &field);
        made += 1;
    }
}

/// Appends starting cells; gives the store that they set up, and how calls on it are chosen.
pub fn set_up(random: &Random, bytes: &mut Vec<u8>) -> (Shape, Buffers) {
    let n = match random.weighted(&[45, 22, 28, 4, 1]) {
        0 => random.range(1, 4),
        1 => random.range(5, 12),
        2 => random.range(33, 48),
        3 => random.range(1, 1024),
        _ => 1024,
    };
    let buffers = starting_cells(random, n, bytes);
    let sweeping = n > 32 && random.percent(70);
    let crowded = !sweeping && random.percent(25);
    let sessions = match (sweeping, crowded) {
        (true, _) => random.range(1, 3),
        (_, true) => random.pick(&[SESSIONS, SESSIONS, random.range(3, SESSIONS)]),
        _ => random.pick(&[1, 2, 2, 2, 3, 3, 4, 6, SESSIONS]),
    };
    let crowd = Crowd { cell: random.below(n.min(4)) as u16, sealed: random.pick(&[1, 1, sessions, random.range(1, sessions)]) };
    let shape = Shape {
        sessions,
        hot: random.range(1, n.min(4)),
        sweeping,
        back: random.pick(&[2, 10, 40, 85]),
        held: random.pick(&[0, 10, 40, 80]),
        own_caps: false,
        crowd: Some(crowd).filter(|_| crowded),
    };
    (shape, buffers)
}

/// Good leading 08 fields, and the store they set up.
fn starting_cells(random: &Random, n: usize, bytes: &mut Vec<u8>) -> Buffers {
    let mut values = Vec::new();
    let mut classes = Vec::new();
    for _ in 0..n {
        let class = if random.percent(60) { random.pick(&[2, 15]) } else { random.below(16) as u8 };
        let value = value_within(random, OUR_CAPS[class as usize]);
        append(bytes, &Field { tag: field::CELL, class, value, ..Field::default() });
        values.push(value);
        classes.push(class);
    }
    let mut buffers = Buffers::new(values, classes);
    assert_eq!(buffers.set_up().number, 100);
    buffers
}

pub fn value_within(random: &Random, cap: u32) -> u32 {
    match random.weighted(&[70, 15, 15]) {
        0 => random.word() % cap.clamp(1, 100),
        1 => cap,
        _ => (random.next() % (cap as u64 + 1)) as u32,
    }
}

/// The next field after the calls so far.
pub fn next_call(random: &Random, shape: &Shape, buffers: &Buffers) -> Field {
    if random.percent(1) {
        return any_call(random, buffers);
    }
    if let Some(crowd) = shape.crowd.as_ref().filter(|_| random.percent(90)) {
        if let Some(field) = crowding(random, shape, crowd, buffers) {
            return field;
        }
    }
    let session = random.below(shape.sessions) as u8;
    let record = buffers.sessions[session as usize];
    let tags = [field::BEGIN, field::READ, field::WRITE, field::SEAL, field::ADVANCE, field::ABANDON];
    let weights = match record.phase {
        IDLE => [88, 3, 3, 2, 2, 2],
        RUNNING if shape.sweeping && record.count < 28 => [1, 78, 20, 0, 1, 0],
        RUNNING if shape.sweeping => [2, 62, 22, 10, 2, 2],
        RUNNING => [2, 38, 36, 19, 2, 3],
        _ => [1, 2, 2, 1, 91, 3],
    };
    let tag = tags[random.weighted(&weights)];
    let cell = choose_cell(random, shape, buffers, session);
    chosen(random, shape, buffers, (tag, session, cell))
}

/// The call that brings a crowd nearer to its wait; none where its cell is claimed.
fn crowding(random: &Random, shape: &Shape, crowd: &Crowd, buffers: &Buffers) -> Option<Field> {
    let cell = crowd.cell;
    if buffers.claimants[cell as usize] != NOBODY {
        return None;
    }
    let in_phase = |phase: u8| -> Vec<u8> {
        (0..shape.sessions as u8).filter(|session| buffers.sessions[*session as usize].phase == phase).collect()
    };
    let outside: Vec<u8> =
        in_phase(RUNNING).into_iter().filter(|session| buffers.readers[cell as usize] >> session & 1 == 0).collect();
    let (idle, running, promoting) = (in_phase(IDLE), in_phase(RUNNING), in_phase(PROMOTING));
    // The more are to seal, the more of the reads hold: who only reads has left the cell with its seal.
    let reads = if random.below(shape.sessions) < crowd.sealed - 1 { field::HOLD } else { field::READ };
    let (tag, sessions) = match promoting.len() {
        _ if !idle.is_empty() => (field::BEGIN, idle),
        _ if !outside.is_empty() => (random.pick(&[reads, field::WRITE]), outside),
        sealed if sealed < crowd.sealed => (field::SEAL, running),
        _ => (field::ADVANCE, promoting),
    };
    Some(sessions).filter(|sessions| !sessions.is_empty()).map(|sessions| {
        let session = random.pick(&sessions);
        chosen(random, shape, buffers, (tag, session, cell))
    })
}

/// The field of a call of a kind, some reads as holds, some writes with the value found.
fn chosen(random: &Random, shape: &Shape, buffers: &Buffers, (tag, session, cell): (u8, u8, u16)) -> Field {
    let tag = if tag == field::READ && random.percent(shape.held) { field::HOLD } else { tag };
    let value = if random.percent(shape.back) { buffers.found(session, cell as u32) } else { None };
    let value = value.unwrap_or_else(|| choose_value(random, buffers, cell));
    carried(tag, session, cell, value)
}

/// A field with the numbers that its tag carries.
fn carried(tag: u8, session: u8, cell: u16, value: u32) -> Field {
    match tag {
        field::READ | field::HOLD => Field { tag, session, cell, ..Field::default() },
        field::WRITE => Field { tag, session, cell, value, ..Field::default() },
        _ => Field { tag, session, ..Field::default() },
    }
}

pub fn choose_cell(random: &Random, shape: &Shape, buffers: &Buffers, session: u8) -> u16 {
    let n = buffers.values.len();
    if random.percent(2) {
        return random.pick(&[n as u16, n as u16 + 1, 1024, 65_535, random.word() as u16]);
    }
    if shape.sweeping && random.percent(85) {
        let entered = buffers.sessions[session as usize].count as usize;
        return ((16 * session as usize + entered + random.below(2)) % n) as u16;
    }
    let bound = if random.percent(75) { shape.hot } else { n };
    random.below(bound) as u16
}

fn choose_value(random: &Random, buffers: &Buffers, cell: u16) -> u32 {
    let cap = match buffers.classes.get(cell as usize) {
        Some(class) => buffers.caps[*class as usize],
        None => return random.word(),
    };
    match random.weighted(&[86, 8, 6]) {
        0 => value_within(random, cap),
        1 => cap.saturating_add(1),
        _ => random.word(),
    }
}

/// Any call, with any session byte.
fn any_call(random: &Random, buffers: &Buffers) -> Field {
    let tag = random.pick(&[field::BEGIN, field::READ, field::HOLD, field::WRITE, field::SEAL, field::ADVANCE, field::ABANDON]);
    let session = random.pick(&[15, 16, 17, 255, random.byte()]);
    let cell = random.below(buffers.values.len() + 1) as u16;
    carried(tag, session, cell, random.word())
}

/// A file whose set-up is refused with 8: one cell has a class above 15 or a value above its cap.
fn refused_cells(random: &Random) -> Vec<u8> {
    let mut bytes = Vec::new();
    let n = random.range(1, 6);
    let bad = random.below(n);
    for cell in 0..n {
        let mut class = random.below(16) as u8;
        let mut value = value_within(random, OUR_CAPS[class as usize]);
        if cell == bad && random.percent(50) {
            class = random.pick(&[16, 17, 255, 16 + (random.byte() % 240)]);
        } else if cell == bad {
            class = random.below(15) as u8;
            value = OUR_CAPS[class as usize] + 1;
        }
        append(&mut bytes, &Field { tag: field::CELL, class, value, ..Field::default() });
    }
    append(&mut bytes, &carried(field::BEGIN, 0, 0, 0));
    bytes
}

/// 1,024 cells and then one more leading 08 field, good, of any class, cut or with a wrong length.
fn too_many_cells(random: &Random) -> Vec<u8> {
    let mut bytes = Vec::new();
    starting_cells(random, 1024, &mut bytes);
    let mut last = Vec::new();
    append(&mut last, &Field { tag: field::CELL, class: random.byte(), value: random.word(), ..Field::default() });
    match random.below(4) {
        0 => last.truncate(random.range(1, 7)),
        1 => last[1] = random.byte(),
        _ => (),
    }
    bytes.extend_from_slice(&last);
    bytes
}

/// A whole file with one to three faults in its bytes.
fn damaged(random: &Random) -> Vec<u8> {
    let mut bytes = whole(random);
    for _ in 0..random.range(1, 3) {
        damage(random, &mut bytes);
    }
    bytes
}

fn damage(random: &Random, bytes: &mut Vec<u8>) {
    let starts = field_starts(bytes);
    let field_start = random.pick(&starts);
    let at = random.below(bytes.len() + 1);
    match random.below(8) {
        0 => bytes.truncate(at),
        1 => bytes.truncate(field_start + random.below(3)),
        2 => bytes.insert(at, random.byte()),
        3 if at < bytes.len() => {
            bytes.remove(at);
        }
        4 if at < bytes.len() => bytes[at] = random.byte(),
        5 if field_start < bytes.len() => bytes[field_start] = random.pick(&[0, 7, 10, 255, 8, random.byte()]),
        6 if field_start + 2 < bytes.len() => {
            let which = random.range(1, 2);
            bytes[field_start + which] = random.byte();
        }
        _ => {
            let mut late = Vec::new();
            append(&mut late, &Field { tag: field::CELL, class: 15, value: random.word(), ..Field::default() });
            let tail = bytes.split_off(field_start.min(bytes.len()));
            bytes.extend_from_slice(&late);
            bytes.extend_from_slice(&tail);
        }
    }
}

/// The first bytes of the good fields, and the place after them.
fn field_starts(bytes: &[u8]) -> Vec<usize> {
    let mut starts = vec![0];
    let mut place = 0;
    loop {
        let reading = field::read_field(bytes, place);
        if reading.number != field::GOOD {
            return starts;
        }
        place += reading.length;
        starts.push(place);
    }
}

/// A file of the longest input, or of one byte more or less; its last field may be cut.
fn at_the_limit(random: &Random) -> Vec<u8> {
    let mut bytes = Vec::new();
    fill(random, &mut bytes, |_, length| length <= MAX_INPUT);
    let length = random.pick(&[MAX_INPUT, MAX_INPUT, MAX_INPUT + 1, MAX_INPUT - 1]);
    bytes.truncate(length);
    bytes
}

/// A short file with zero bytes after it, up to more than the longest input.
fn too_long(random: &Random) -> Vec<u8> {
    let mut bytes = whole(random);
    bytes.resize(MAX_INPUT + random.pick(&[1, 2, 100, 5000]), 0);
    bytes
}
