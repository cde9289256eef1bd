//! Document 02, Paper 1: many reads in one call, in lists of calls and on lent buffers that no list of calls leaves.

mod common;

use common::*;
use reference::store::{Buffers, Session};

/// The words of an entry of session 0.
fn entry(buffers: &Buffers, index: usize) -> &[u32] {
    &buffers.logs[4 * index..4 * index + 4]
}

/// A store of values 3, 4, 5 and 6 in which session 1 claims cell 2, and session 0 runs.
fn claimed() -> Buffers {
    let mut buffers = store(&[(15, 3), (15, 4), (15, 5), (15, 6)]);
    run(&mut buffers, &[(begin(0), number(100)), (begin(1), number(100)), (write(1, 2, 7), number(100))]);
    run(&mut buffers, &[(seal(1), number(102)), (advance(1), number(103))]);
    buffers
}

/// The buffers after single reads in this order, up to the first answer that is not 101; that answer's number and the values before it.
fn single_reads(mut buffers: Buffers, session: u8, cells: &[u32]) -> (Buffers, u32, Vec<u32>) {
    let mut values = Vec::new();
    for cell in cells {
        let answer = buffers.read(session, *cell);
        if answer.number != 101 {
            return (buffers, answer.number, values);
        }
        values.push(answer.value);
    }
    (buffers, 101, values)
}

#[test]
fn every_cell_of_the_list_is_read_in_its_order() {
    let mut buffers = store(&[(15, 3), (15, 4), (15, 5), (15, 6)]);
    run(&mut buffers, &[(begin(0), number(100)), (write(0, 1, 9), number(100))]);
    assert_eq!(read_many(&mut buffers, 0, &[3, 1, 0], 3), (101, 3, vec![6, 9, 3]));
    assert_eq!(buffers.sessions[0], Session { phase: 1, count: 3, next: 0 });
    assert_eq!(buffers.readers, [1, 1, 0, 1]);
    assert_eq!(entry(&buffers, 0), [1, 4, 9, 1]);
    assert_eq!(entry(&buffers, 1), [3, 6, 6, 0]);
    assert_eq!(entry(&buffers, 2), [0, 3, 3, 0]);
    assert_eq!(entry(&buffers, 3), [0, 0, 0, 0]);
}

#[test]
fn words_past_the_count_are_untouched() {
    let mut buffers = claimed();
    assert_eq!(read_many(&mut buffers, 0, &[0, 1], 5), (101, 2, vec![3, 4, 92, 93, 94]));
    assert_eq!(read_many(&mut buffers, 0, &[1, 4, 0], 5), (3, 1, vec![4, 91, 92, 93, 94]));
    assert_eq!(read_many(&mut buffers, 0, &[3, 2, 0], 5), (6, 1, vec![6, 91, 92, 93, 94]));
    assert_eq!(read_many(&mut buffers, 0, &[0], 2), (2, 0, vec![90, 91]));
}

#[test]
fn a_repeated_cell_is_entered_once() {
    let mut buffers = store(&[(15, 3), (15, 4)]);
    run(&mut buffers, &[(begin(0), number(100))]);
    assert_eq!(read_many(&mut buffers, 0, &[1, 1, 0, 1], 4), (101, 4, vec![4, 4, 3, 4]));
    assert_eq!(buffers.sessions[0].count, 2);
    assert_eq!(buffers.logs[..12], [1, 4, 4, 0, 0, 3, 3, 0, 0, 0, 0, 0]);
    assert_eq!(read_many(&mut buffers, 0, &[0; 32], 32), (101, 32, vec![3; 32]));
    assert_eq!(buffers.sessions[0].count, 2);
}

#[test]
fn a_claimed_cell_rolls_back_what_the_list_read_before_it() {
    let mut buffers = claimed();
    run(&mut buffers, &[(begin(5), number(100)), (read(5, 0), value(3))]);
    assert_eq!(read_many(&mut buffers, 0, &[0, 3, 2, 1], 4), (6, 2, vec![3, 6, 92, 93]));
    assert_eq!(buffers.sessions[0], Session::default());
    assert_eq!(buffers.readers, [1 << 5, 0, 2, 0]);
    assert_eq!(buffers.claimants, [16, 16, 1, 16]);
    assert_eq!(buffers.exclusives, [0, 0, 1, 0]);
    assert_eq!(buffers.logs[..12], [0, 3, 3, 0, 3, 6, 6, 0, 0, 0, 0, 0]);
}

#[test]
fn a_list_that_fills_the_log_stops_with_5_and_leaves_it_full() {
    let mut buffers = store_of(40);
    run(&mut buffers, &[(begin(0), number(100))]);
    let first: Vec<u32> = (0..30).collect();
    assert_eq!(read_many(&mut buffers, 0, &first, 30), (101, 30, vec![3; 30]));
    assert_eq!(read_many(&mut buffers, 0, &[5, 30, 31, 6, 32, 33], 6), (5, 4, vec![3, 3, 3, 3, 94, 95]));
    assert_eq!(buffers.sessions[0], Session { phase: 1, count: 32, next: 0 });
    assert_eq!(entry(&buffers, 31), [31, 3, 3, 0]);
    assert_eq!(buffers.readers[30..34], [1, 1, 0, 0]);
    let full = buffers.clone();
    assert_eq!(read_many(&mut buffers, 0, &[31, 0, 39], 3), (5, 2, vec![3, 3, 92]));
    assert_eq!(buffers, full);
    run(&mut buffers, &[(seal(0), number(105))]);
}

#[test]
fn a_cell_that_is_not_there_leaves_the_reads_before_it() {
    let mut buffers = store_of(3);
    run(&mut buffers, &[(begin(0), number(100))]);
    assert_eq!(read_many(&mut buffers, 0, &[2, 3, 0], 3), (3, 1, vec![3, 91, 92]));
    assert_eq!(buffers.sessions[0], Session { phase: 1, count: 1, next: 0 });
    assert_eq!(buffers.readers, [0, 0, 1]);
    for stray in [3, 1024, 1 << 16, u32::MAX] {
        assert_eq!(read_many(&mut buffers, 0, &[stray, 0], 2), (3, 0, vec![90, 91]));
    }
}

#[test]
fn a_list_has_1_to_32_cells() {
    let mut buffers = store_of(3);
    run(&mut buffers, &[(begin(0), number(100))]);
    let before = buffers.clone();
    for length in [0, 33, 34, 256, 288] {
        assert_eq!(read_many(&mut buffers, 0, &vec![0; length], length), (15, 0, lent_target(length)));
        assert_eq!(buffers, before);
    }
    for length in [1, 2, 31, 32] {
        assert_eq!(read_many(&mut buffers, 0, &vec![0; length], length), (101, length as u32, vec![3; length]));
    }
}

#[test]
fn a_target_is_no_shorter_than_its_list() {
    let mut buffers = store_of(3);
    run(&mut buffers, &[(begin(0), number(100))]);
    let before = buffers.clone();
    assert_eq!(read_many(&mut buffers, 0, &[0, 1], 1), (13, 0, vec![90]));
    assert_eq!(read_many(&mut buffers, 0, &[0], 0), (13, 0, vec![]));
    assert_eq!(read_many(&mut buffers, 0, &[0, 3], 1), (13, 0, vec![90]));
    assert_eq!(buffers, before);
}

#[test]
fn fifteen_comes_before_13_and_13_before_7_1_9_and_2() {
    let idle = store_of(3);
    let mut damaged = store_of(3);
    damaged.sessions[3] = Session { phase: 9, count: 200, next: 7 };
    let mut wrong = damaged.clone();
    wrong.readers.pop();
    for (before, session, refusal) in [(&idle, 3, 2), (&damaged, 3, 9), (&damaged, 16, 1), (&wrong, 16, 7)] {
        let mut buffers = before.clone();
        assert_eq!(read_many(&mut buffers, session, &[9; 33], 1), (15, 0, vec![90]));
        assert_eq!(read_many(&mut buffers, session, &[], 0), (15, 0, vec![]));
        assert_eq!(read_many(&mut buffers, session, &[9, 9], 1), (13, 0, vec![90]));
        assert_eq!(read_many(&mut buffers, session, &[9, 9], 2), (refusal, 0, vec![90, 91]));
        assert_eq!(&buffers, before);
    }
}

#[test]
fn of_several_entries_the_first_counts_and_a_full_log_comes_before_a_claim() {
    let mut buffers = store_of(4);
    buffers.sessions[0] = Session { phase: 1, count: 32, next: 9 };
    for index in 0..32 {
        buffers.logs[4 * index..4 * index + 4].copy_from_slice(&[1, 30, 40 + index as u32, 2]);
    }
    buffers.claimants = vec![16, 7, 200, 16];
    let before = buffers.clone();
    assert_eq!(read_many(&mut buffers, 0, &[1, 1, 2, 1], 4), (5, 2, vec![40, 40, 92, 93]));
    assert_eq!(buffers, before);
    buffers.sessions[0].count = 31;
    assert_eq!(read_many(&mut buffers, 0, &[1, 3, 0], 3), (5, 2, vec![40, 3, 92]));
    assert_eq!(buffers.sessions[0], Session { phase: 1, count: 32, next: 9 });
    buffers.sessions[0].count = 31;
    assert_eq!(read_many(&mut buffers, 0, &[1, 2, 0], 3), (6, 1, vec![40, 91, 92]));
    assert_eq!(buffers.sessions[0], Session::default());
    assert_eq!(buffers.claimants, [16, 7, 200, 16]);
}

#[test]
fn many_reads_are_the_single_reads() {
    let lists: [&[u32]; 7] = [&[0], &[1, 0, 3], &[0, 0, 1], &[3, 2, 1], &[2], &[1, 4, 0], &[0, 1, 3, 0, 1, 3, 2]];
    for session in [0, 1, 2, 16] {
        for cells in lists {
            let mut buffers = claimed();
            let (after, last, values) = single_reads(buffers.clone(), session, cells);
            let (number, count, target) = read_many(&mut buffers, session, cells, cells.len());
            assert_eq!((number, count as usize), (last, values.len()), "session {} and {:?}", session, cells);
            assert_eq!(target[..values.len()], values, "session {} and {:?}", session, cells);
            assert_eq!(buffers, after, "session {} and {:?}", session, cells);
        }
    }
}

#[test]
fn a_value_that_many_reads_got_is_kept_until_the_seal() {
    let mut buffers = store_of(2);
    run(&mut buffers, &[(begin(0), number(100)), (begin(1), number(100))]);
    assert_eq!(read_many(&mut buffers, 0, &[0, 1], 2), (101, 2, vec![3, 3]));
    run(&mut buffers, &[(write(1, 1, 5), number(100)), (seal(1), number(102)), (advance(1), waiting(1))]);
    assert_eq!(read_many(&mut buffers, 0, &[1, 0], 2), (101, 2, vec![3, 3]));
    run(&mut buffers, &[(seal(0), number(105)), (advance(1), number(103)), (advance(1), number(103)), (advance(1), number(105))]);
    assert_eq!(buffers.values, [3, 5]);
}
