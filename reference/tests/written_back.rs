//! Document 02, Paper 2: values written back, in lists of calls and on lent buffers that no list of calls leaves.

mod common;

use common::*;
use reference::boundary::located;
use reference::store::{Part, Session};

#[test]
fn two_kiosks_that_write_back_one_value_both_commit_at_the_seal() {
    let mut buffers = store_of(1);
    run(&mut buffers, &[(begin(0), number(100)), (begin(1), number(100)), (read(0, 0), value(3)), (read(1, 0), value(3))]);
    run(&mut buffers, &[(write(0, 0, 3), number(100)), (write(1, 0, 3), number(100))]);
    run(&mut buffers, &[(seal(0), number(105))]);
    assert_eq!(buffers.readers, [2]);
    run(&mut buffers, &[(seal(1), number(105))]);
    assert_eq!((buffers.values, buffers.readers, buffers.claimants, buffers.exclusives), (vec![3], vec![0], vec![16], vec![0]));
    assert_eq!(buffers.sessions, [Session::default(); 16]);
    assert_eq!(buffers.logs[..4], [0, 3, 3, 1]);
}

#[test]
fn a_changed_value_put_back_is_not_written() {
    let mut buffers = store_of(1);
    run(
        &mut buffers,
        &[(begin(0), number(100)), (read(0, 0), value(3)), (write(0, 0, 4), number(100)), (write(0, 0, 3), number(100))],
    );
    run(&mut buffers, &[(read(0, 0), value(3)), (seal(0), number(105)), (advance(0), number(2))]);
    assert_eq!((buffers.values, buffers.readers), (vec![3], vec![0]));
}

#[test]
fn a_value_written_back_and_then_changed_is_written() {
    let mut buffers = store_of(1);
    run(
        &mut buffers,
        &[(begin(0), number(100)), (read(0, 0), value(3)), (write(0, 0, 3), number(100)), (write(0, 0, 4), number(100))],
    );
    run(&mut buffers, &[(write(0, 0, 4), number(100)), (seal(0), number(102))]);
    run(&mut buffers, &[(advance(0), number(103)), (advance(0), number(103)), (advance(0), number(105))]);
    assert_eq!(buffers.values, [4]);
}

#[test]
fn the_value_found_is_written_into_a_new_cell_and_counts_for_nothing() {
    let mut buffers = store_of(1);
    run(&mut buffers, &[(begin(0), number(100)), (write(0, 0, 3), number(100))]);
    assert_eq!((buffers.readers[0], &buffers.logs[..4]), (1, &[0, 3, 3, 1][..]));
    run(
        &mut buffers,
        &[(begin(1), number(100)), (write(1, 0, 5), number(100)), (seal(1), number(102)), (advance(1), waiting(1))],
    );
    run(&mut buffers, &[(seal(0), number(105)), (advance(1), number(103)), (advance(1), number(103)), (advance(1), number(105))]);
    assert_eq!(buffers.values, [5]);
}

#[test]
fn of_two_written_cells_the_changed_one_alone_is_advanced() {
    for (back, changed) in [(0, 1), (1, 0)] {
        let mut buffers = store_of(2);
        run(&mut buffers, &[(begin(0), number(100)), (write(0, back, 3), number(100)), (write(0, changed, 4), number(100))]);
        run(
            &mut buffers,
            &[(begin(1), number(100)), (write(1, back, 7), number(100)), (seal(1), number(102)), (advance(1), waiting(1))],
        );
        run(&mut buffers, &[(seal(0), number(102))]);
        assert_eq!(buffers.readers[back as usize], 2);
        assert_eq!(buffers.readers[changed as usize], 1);
        run(&mut buffers, &[(advance(1), number(103)), (advance(1), number(103)), (advance(1), number(105))]);
        run(&mut buffers, &[(advance(0), number(103)), (advance(0), number(103)), (advance(0), number(105))]);
        assert_eq!(buffers.values[back as usize], 7);
        assert_eq!(buffers.values[changed as usize], 4);
        assert_eq!(
            (&buffers.readers[..], &buffers.claimants[..], &buffers.exclusives[..]),
            (&[0, 0][..], &[16, 16][..], &[0, 0][..])
        );
    }
}

#[test]
fn a_sealed_session_does_not_meet_a_claim_on_a_cell_that_it_wrote_back() {
    let mut buffers = store_of(2);
    run(
        &mut buffers,
        &[(begin(0), number(100)), (begin(1), number(100)), (write(0, 0, 3), number(100)), (write(0, 1, 4), number(100))],
    );
    run(
        &mut buffers,
        &[(write(1, 0, 5), number(100)), (seal(0), number(102)), (seal(1), number(102)), (advance(1), number(103))],
    );
    run(&mut buffers, &[(advance(0), number(103)), (advance(0), number(103)), (advance(0), number(105))]);
    assert_eq!((buffers.values, buffers.claimants), (vec![3, 4], vec![1, 16]));
}

#[test]
fn peek_shows_the_word_of_the_log_after_a_write_of_any_value() {
    let mut buffers = store_of(2);
    run(&mut buffers, &[(begin(0), number(100)), (read(0, 0), value(3)), (read(0, 1), value(3)), (write(0, 1, 3), number(100))]);
    assert_eq!(located(&buffers, buffers.peek(0, 0)), Part::Value(0));
    assert_eq!(located(&buffers, buffers.peek(0, 1)), Part::Log(6));
    run(&mut buffers, &[(write(0, 1, 4), number(100)), (write(0, 1, 3), number(100))]);
    assert_eq!(located(&buffers, buffers.peek(0, 1)), Part::Log(6));
}

#[test]
fn the_first_entry_of_a_cell_decides() {
    for (entries, answer, readers) in [
        ([[1, 6, 6, 1], [1, 6, 7, 1]], 105, [0, 0, 0]),
        ([[1, 6, 7, 1], [1, 6, 6, 1]], 102, [0, 8, 0]),
        ([[1, 6, 7, 0], [1, 6, 7, 1]], 105, [0, 0, 0]),
        ([[1, 6, 6, 1], [1, 7, 6, 1]], 105, [0, 0, 0]),
    ] {
        let mut buffers = entered(1, &entries);
        buffers.readers[1] = 8;
        run(&mut buffers, &[(seal(3), number(answer))]);
        assert_eq!(buffers.readers, readers, "{:?}", entries);
        assert_eq!(buffers.logs[128 * 3..128 * 3 + 8], entries.concat());
    }
    for phase in 2..=4 {
        all_refused(&entered(phase, &[[1, 6, 6, 1], [1, 6, 7, 1]]), 9);
    }
    let mut buffers = entered(3, &[[1, 6, 7, 1], [1, 6, 6, 1]]);
    run(&mut buffers, &[(advance(3), number(103))]);
    assert_eq!(buffers.values, [3, 7, 3]);
}

#[test]
fn another_value_without_the_written_bit_is_only_read() {
    let mut buffers = entered(1, &[[0, 6, 7, 0], [1, 6, 7, 4]]);
    buffers.readers = vec![8, 8, 8];
    assert_eq!(located(&buffers, buffers.peek(3, 1)), Part::Value(1));
    run(&mut buffers, &[(read(3, 0), value(7)), (seal(3), number(105))]);
    assert_eq!(buffers.readers, [0, 0, 8]);
}

#[test]
fn any_bits_above_the_marks_may_stand_and_every_bit_of_the_values_counts() {
    for dirty in [1, 5, 0x8000_0001, 0xffff_fffd] {
        run(&mut entered(1, &[[0, 6, 6, dirty]]), &[(seal(3), number(105))]);
        for bit in 0..32 {
            run(&mut entered(1, &[[0, 6, 6 ^ 1 << bit, dirty]]), &[(seal(3), number(102))]);
        }
    }
}

#[test]
fn the_value_found_is_the_logs_and_not_the_stores() {
    let mut buffers = entered(1, &[[0, 6, 6, 1], [1, 6, 3, 1]]);
    buffers.readers = vec![8, 8, 8];
    run(&mut buffers, &[(seal(3), number(102))]);
    assert_eq!(buffers.readers, [0, 8, 8]);
    run(&mut buffers, &[(advance(3), number(103)), (advance(3), number(103)), (advance(3), number(105))]);
    assert_eq!((buffers.values, buffers.readers), (vec![3, 3, 3], vec![0, 0, 8]));
    run(&mut entered(1, &[[0, 6, 6, 1]]), &[(write(3, 0, 3), number(100)), (seal(3), number(102))]);
    run(&mut entered(1, &[[0, 6, 3, 1]]), &[(write(3, 0, 6), number(100)), (seal(3), number(105))]);
}

#[test]
fn written_back_cells_alone_at_or_above_next_are_9_in_phases_2_to_4() {
    for phase in 2..=4 {
        all_refused(&entered(phase, &[[0, 6, 6, 1]]), 9);
        all_refused(&entered(phase, &[[0, 6, 6, 1], [1, 3, 3, 5], [2, 3, 4, 0]]), 9);
        let mut past = entered(phase, &[[2, 6, 6, 1], [0, 6, 7, 1]]);
        past.sessions[3].next = 1;
        all_refused(&past, 9);
        past.sessions[3].next = 0;
        run(&mut past, &[(begin(3), number(2))]);
    }
}

#[test]
fn an_advance_passes_written_back_cells_by_in_each_phase() {
    let entries = [[0, 6, 6, 1], [2, 6, 6, 1], [1, 6, 7, 1]];
    for (phase, answer, after) in [
        (2, 103, Session { phase: 3, count: 3, next: 0 }),
        (3, 103, Session { phase: 4, count: 3, next: 0 }),
        (4, 105, Session::default()),
    ] {
        let mut buffers = entered(phase, &entries);
        buffers.readers = vec![1, 8, 1];
        buffers.claimants = vec![9, 3, 9];
        run(&mut buffers, &[(advance(3), number(answer))]);
        assert_eq!(buffers.sessions[3], after);
        assert_eq!(buffers.readers, [1, if phase == 4 { 0 } else { 8 }, 1]);
        assert_eq!(buffers.claimants, [9, if phase == 4 { 16 } else { 3 }, 9]);
        assert_eq!(buffers.values, [3, if phase == 3 { 7 } else { 3 }, 3]);
    }
}

#[test]
fn a_roll_back_frees_written_back_cells_too() {
    for phase in [1, 2] {
        let mut buffers = entered(phase, &[[0, 3, 3, 1], [1, 3, 4, 1]]);
        buffers.readers = vec![8, 8, 8];
        buffers.claimants = vec![3, 3, 3];
        run(&mut buffers, &[(abandon(3), number(100))]);
        assert_eq!((buffers.readers, buffers.claimants), (vec![0, 0, 8], vec![16, 16, 3]));
    }
}
