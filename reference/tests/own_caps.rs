//! Document 02, Paper 5: set-up, writes and loads by tables of the caller's own, in lists of calls and on lent buffers that no list of calls leaves.

mod common;

use common::*;
use reference::caps::passes;
use reference::store::{Buffers, Call, Session, Table, OUR_CAPS};
use reference::within_caps::above_its_cap;

/// Caps 10, 20 and on to 160.
fn tens() -> Vec<u32> {
    (1..=16).map(|class| 10 * class).collect()
}

/// This table with one cap changed.
fn with(mut caps: Vec<u32>, class: usize, cap: u32) -> Vec<u32> {
    caps[class] = cap;
    caps
}

/// Set-up by the table in force.
const SET_UP: Call = Call::SetUp { table: Table::InForce };

/// A store of these classes and values, set up by these caps.
fn store_by(caps: Vec<u32>, cells: &[(u8, u32)]) -> Buffers {
    let mut buffers = Buffers::new(cells.iter().map(|cell| cell.1).collect(), cells.iter().map(|cell| cell.0).collect());
    buffers.caps = caps;
    run(&mut buffers, &[(SET_UP, number(100))]);
    buffers
}

/// Three cells of classes 0, 2 and 15 with values 7, 30 and 5, set up by caps 10 to 160.
fn three() -> Buffers {
    store_by(tens(), &[(0, 7), (2, 30), (15, 5)])
}

/// Asserts that this load is refused with this number and leaves everything as before.
fn refused(buffers: &Buffers, new_caps: &[u32], refusal: u32) {
    let mut after = buffers.clone();
    assert_eq!(after.load_caps(new_caps), number(refusal), "{:?}", new_caps);
    assert_eq!(&after, buffers, "{:?}", new_caps);
}

/// Asserts that this load is answered 100 and changes the table in force alone.
fn loaded(buffers: &mut Buffers, new_caps: Vec<u32>) {
    let before = buffers.clone();
    assert_eq!(buffers.load_caps(&new_caps), number(100), "{:?}", new_caps);
    assert_eq!(*buffers, Buffers { caps: new_caps, ..before });
}

/// Asserts that this call is refused with this number and leaves everything as before.
fn turned_down(buffers: &Buffers, call: Call, refusal: u32) {
    let mut after = buffers.clone();
    assert_eq!(after.call(call), number(refusal), "{:?}", call);
    assert_eq!(&after, buffers, "{:?}", call);
}

/// Tables that do not pass, each for one reason.
fn unfit_tables() -> Vec<Vec<u32>> {
    let equal = (1..16).map(|class| with(tens(), class, 10 * class as u32));
    let falling = (1..16).map(|class| with(tens(), class, 10 * class as u32 - 1));
    let others = [with(tens(), 0, 0), with(tens(), 15, 0), vec![0; 16], vec![1; 16], vec![u32::MAX; 16]];
    equal.chain(falling).chain(others).chain([tens().into_iter().rev().collect()]).collect()
}

#[test]
fn a_table_passes_from_1_on_and_rising() {
    let least: Vec<u32> = (1..=16).collect();
    let most: Vec<u32> = (0..16).map(|class| u32::MAX - 15 + class).collect();
    for caps in [OUR_CAPS.to_vec(), tens(), least, most] {
        assert!(passes(&caps), "{:?}", caps);
    }
    for caps in unfit_tables() {
        assert!(!passes(&caps), "{:?}", caps);
    }
}

#[test]
fn set_up_goes_by_its_own_table() {
    let mut buffers = store_by(tens(), &[(0, 10), (2, 30), (15, 160)]);
    turned_down(&Buffers { values: vec![10, 31, 160], ..buffers.clone() }, SET_UP, 8);
    turned_down(&Buffers { values: vec![11, 30, 160], ..buffers.clone() }, SET_UP, 8);
    turned_down(&Buffers { values: vec![10, 30, 161], ..buffers.clone() }, SET_UP, 8);
    turned_down(&Buffers { classes: vec![0, 2, 16], ..buffers.clone() }, SET_UP, 8);
    turned_down(&buffers, Call::SetUp { table: Table::Ours }, 8);
    buffers.sessions[3] = Session { phase: 9, count: 200, next: 7 };
    buffers.readers = vec![1, 2, 3];
    buffers.claimants = vec![1, 2, 3];
    buffers.exclusives = vec![1, 2, 3];
    buffers.logs.fill(77);
    run(&mut buffers, &[(SET_UP, number(100))]);
    assert_eq!(buffers, store_by(tens(), &[(0, 10), (2, 30), (15, 160)]));
}

#[test]
fn set_up_tests_7_then_16_then_8() {
    for caps in unfit_tables() {
        turned_down(&Buffers { caps: caps.clone(), ..three() }, SET_UP, 16);
        turned_down(&Buffers { caps: caps.clone(), classes: vec![16, 2, 15], ..three() }, SET_UP, 16);
        turned_down(&Buffers { caps, readers: vec![0; 2], ..three() }, SET_UP, 7);
    }
    for length in [0, 1, 15, 17, 32] {
        let rising: Vec<u32> = (1..=length).map(|cap| 10 * cap).collect();
        turned_down(&Buffers { caps: rising, classes: vec![16, 2, 15], ..three() }, SET_UP, 7);
        turned_down(&Buffers { caps: vec![0; length as usize], ..three() }, SET_UP, 7);
    }
}

#[test]
fn a_write_goes_by_the_table_handed_in() {
    let mut buffers = three();
    run(&mut buffers, &[(begin(0), number(100)), (write_by(0, 1, 30), number(100)), (write_by(0, 1, 31), number(4))]);
    run(&mut buffers, &[(write_by(0, 0, 10), number(100)), (write_by(0, 0, 11), number(4)), (write_by(0, 2, 160), number(100))]);
    run(&mut buffers, &[(write_by(0, 2, 161), number(4)), (write(0, 2, 161), number(100)), (write(0, 1, 9), number(4))]);
    assert_eq!(buffers.logs[..12], [1, 30, 30, 1, 0, 7, 10, 1, 2, 5, 161, 1]);
}

#[test]
fn a_write_goes_by_a_table_that_does_not_pass() {
    let falling: Vec<u32> = tens().into_iter().rev().collect();
    let mut buffers = Buffers { caps: falling, ..three() };
    run(&mut buffers, &[(begin(0), number(100)), (write_by(0, 0, 160), number(100)), (write_by(0, 0, 161), number(4))]);
    run(&mut buffers, &[(write_by(0, 1, 140), number(100)), (write_by(0, 2, 10), number(100)), (write_by(0, 2, 11), number(4))]);
    buffers.caps = vec![0; 16];
    run(&mut buffers, &[(write_by(0, 0, 0), number(100)), (write_by(0, 0, 1), number(4))]);
    buffers.classes[0] = 16;
    run(&mut buffers, &[(write_by(0, 0, 0), number(8))]);
}

#[test]
fn a_write_tests_its_table_with_the_other_lengths() {
    for length in [0, 1, 15, 17, 32] {
        let mut buffers = Buffers { caps: vec![9; length], ..three() };
        turned_down(&buffers, write_by(16, 9, 99), 7);
        buffers.sessions[3] = Session { phase: 9, count: 200, next: 7 };
        turned_down(&buffers, write_by(3, 9, 99), 7);
        turned_down(&buffers, write_by(0, 9, 99), 7);
        run(&mut buffers, &[(begin(0), number(100)), (write_by(0, 0, 0), number(7)), (write(0, 0, 0), number(100))]);
    }
}

#[test]
fn a_write_by_a_table_is_refused_in_the_order_of_any_write() {
    let mut buffers = Buffers { caps: vec![0; 16], classes: vec![0, 99, 15], ..three() };
    buffers.sessions[3] = Session { phase: 9, count: 200, next: 7 };
    turned_down(&Buffers { logs: vec![0; 2047], ..buffers.clone() }, write_by(16, 9, 99), 7);
    turned_down(&buffers, write_by(16, 9, 99), 1);
    turned_down(&buffers, write_by(3, 9, 99), 9);
    turned_down(&buffers, write_by(0, 9, 99), 2);
    run(&mut buffers, &[(begin(0), number(100))]);
    turned_down(&buffers, write_by(0, 3, 99), 3);
    turned_down(&buffers, write_by(0, 1, 99), 8);
    buffers.claimants = vec![4; 3];
    turned_down(&buffers, write_by(0, 0, 1), 4);
    buffers.sessions[0].count = 32;
    buffers.logs[..128].fill(2);
    turned_down(&buffers, write_by(0, 0, 1), 4);
    turned_down(&buffers, write_by(0, 0, 0), 5);
    buffers.sessions[0].count = 31;
    run(&mut buffers, &[(write_by(0, 0, 0), number(6))]);
    assert_eq!(buffers.sessions[0], Session::default());
}

#[test]
fn a_load_while_a_session_is_not_idle_is_2() {
    for session in [0, 7, 15] {
        for phase in [1, 2, 3, 4, 5, 7, 16, 255] {
            let mut buffers = three();
            buffers.sessions[session].phase = phase;
            refused(&buffers, &tens(), 2);
            refused(&buffers, &[0; 16], 2);
            buffers.classes[0] = 16;
            refused(&buffers, &OUR_CAPS, 2);
            buffers.sessions[session] = Session { phase: 0, count: 255, next: 65_535 };
            refused(&buffers, &[0; 16], 16);
            refused(&buffers, &OUR_CAPS, 8);
        }
    }
    let mut buffers = three();
    run(&mut buffers, &[(begin(4), number(100))]);
    refused(&buffers, &with(tens(), 15, 200), 2);
    run(&mut buffers, &[(write_by(4, 0, 8), number(100)), (seal(4), number(102))]);
    refused(&buffers, &with(tens(), 15, 200), 2);
    run(&mut buffers, &[(advance(4), number(103)), (advance(4), number(103))]);
    refused(&buffers, &with(tens(), 15, 200), 2);
    run(&mut buffers, &[(advance(4), number(105))]);
    loaded(&mut buffers, with(tens(), 15, 200));
}

#[test]
fn an_unfit_table_is_16() {
    for caps in unfit_tables() {
        refused(&three(), &caps, 16);
    }
}

#[test]
fn a_table_has_16_caps() {
    for length in [0, 1, 15, 17, 32] {
        let rising: Vec<u32> = (1..=length).map(|cap| 100 * cap).collect();
        let mut buffers = three();
        refused(&buffers, &rising, 7);
        refused(&buffers, &vec![0; length as usize], 7);
        refused(&Buffers { caps: rising.clone(), ..buffers.clone() }, &tens(), 7);
        refused(&Buffers { caps: rising.clone(), ..buffers.clone() }, &rising, 7);
        buffers.sessions[0].phase = 1;
        refused(&buffers, &rising, 7);
        refused(&Buffers { caps: rising, ..buffers.clone() }, &tens(), 7);
    }
    let fitting = three();
    for buffers in [
        Buffers { values: vec![], ..fitting.clone() },
        Buffers { classes: vec![0; 2], ..fitting.clone() },
        Buffers { readers: vec![0; 4], ..fitting.clone() },
        Buffers { claimants: vec![16; 2], ..fitting.clone() },
        Buffers { exclusives: vec![0; 4], ..fitting.clone() },
        Buffers { logs: vec![0; 2049], ..fitting.clone() },
        Buffers { values: vec![0; 1025], classes: vec![0; 1025], readers: vec![0; 1025], ..fitting.clone() },
    ] {
        refused(&buffers, &tens(), 7);
        refused(&buffers, &[0; 16], 7);
    }
}

#[test]
fn a_class_above_15_comes_before_a_value_above_its_new_cap_and_after_16() {
    for cell in 0..3 {
        for class in [16, 255] {
            let mut buffers = three();
            buffers.classes[cell] = class;
            refused(&buffers, &tens(), 8);
            refused(&buffers, &(1..=16).collect::<Vec<u32>>(), 8);
            refused(&buffers, &[7; 16], 16);
        }
    }
}

#[test]
fn a_value_above_its_new_cap_is_17() {
    let buffers = three();
    refused(&buffers, &with(tens(), 0, 6), 17);
    refused(&buffers, &with(tens(), 2, 29), 17);
    refused(&buffers, &OUR_CAPS, 17);
    loaded(&mut buffers.clone(), with(tens(), 0, 7));
    let tight = vec![7, 8, 30, 31, 32, 33, 34, 35, 36, 37, 38, 39, 40, 41, 42, 43];
    loaded(&mut buffers.clone(), tight);
    let last = store_by(tens(), &[(0, 1), (0, 1), (15, 160)]);
    refused(&last, &with(tens(), 15, 159), 17);
    loaded(&mut last.clone(), with(tens(), 15, 161));
}

#[test]
fn seventeen_leaves_the_old_table_and_a_write_goes_by_it() {
    let mut buffers = three();
    let low = vec![7, 8, 29, 30, 40, 50, 60, 70, 80, 90, 100, 110, 120, 130, 140, 500];
    refused(&buffers, &low, 17);
    assert_eq!(buffers.load_caps(&low), number(17));
    run(&mut buffers, &[(begin(0), number(100)), (write_by(0, 0, 10), number(100)), (write_by(0, 2, 161), number(4))]);
    run(&mut buffers, &[(write_by(0, 2, 160), number(100)), (write_by(0, 1, 30), number(100))]);
}

#[test]
fn a_write_goes_by_the_table_that_was_loaded() {
    let mut buffers = three();
    run(&mut buffers, &[(begin(0), number(100)), (write_by(0, 0, 11), number(4)), (abandon(0), number(100))]);
    loaded(&mut buffers, with(tens(), 0, 19));
    run(&mut buffers, &[(begin(0), number(100)), (write_by(0, 0, 19), number(100)), (write_by(0, 0, 20), number(4))]);
    run(&mut buffers, &[(seal(0), number(102)), (advance(0), number(103)), (advance(0), number(103)), (advance(0), number(105))]);
    assert_eq!(buffers.values, [19, 30, 5]);
    refused(&buffers, &tens(), 17);
    run(&mut buffers, &[(begin(0), number(100)), (write_by(0, 0, 3), number(100)), (seal(0), number(102))]);
    run(&mut buffers, &[(advance(0), number(103)), (advance(0), number(103)), (advance(0), number(105))]);
    loaded(&mut buffers, with(tens(), 0, 3));
    run(&mut buffers, &[(begin(0), number(100)), (write_by(0, 0, 4), number(4)), (write_by(0, 0, 3), number(100))]);
}

#[test]
fn the_old_table_need_not_pass() {
    for caps in unfit_tables() {
        loaded(&mut Buffers { caps: caps.clone(), ..three() }, tens());
        refused(&Buffers { caps, ..three() }, &[1; 16], 16);
    }
}

#[test]
fn a_load_mends_values_above_the_old_caps() {
    let mut buffers = Buffers { values: vec![99, 30, 5], ..three() };
    assert!(above_its_cap(&buffers).is_some());
    refused(&buffers, &tens(), 17);
    let high: Vec<u32> = (99..115).collect();
    loaded(&mut buffers, high);
    assert_eq!(above_its_cap(&buffers), None);
}

#[test]
fn nothing_else_reads_the_table() {
    let mut buffers = Buffers { caps: vec![], ..three() };
    run(
        &mut buffers,
        &[(begin(0), number(100)), (read(0, 1), value(30)), (hold(0, 0), value(7)), (write(0, 2, 99), number(100))],
    );
    assert_eq!(buffers.peek(0, 2), [99]);
    run(&mut buffers, &[(seal(0), number(102)), (advance(0), number(103)), (advance(0), number(103)), (advance(0), number(103))]);
    run(&mut buffers, &[(advance(0), number(103)), (advance(0), number(103)), (advance(0), number(105))]);
    buffers.values[1] = 8;
    run(&mut buffers, &[(begin(0), number(100)), (abandon(0), number(100))]);
    assert_eq!(buffers.values, [7, 8, 99]);
}

#[test]
fn a_store_of_1024_cells_is_loaded() {
    let mut buffers = store_by(tens(), &[(1, 20); 1024]);
    loaded(&mut buffers, with(tens(), 1, 29));
    refused(&buffers, &with(tens(), 1, 19), 17);
    buffers.values = vec![0; 1024];
    buffers.values[1023] = 20;
    refused(&buffers, &with(tens(), 1, 19), 17);
    buffers.classes[1023] = 16;
    refused(&buffers, &with(tens(), 1, 19), 8);
}
