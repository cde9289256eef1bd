//! Document 02, Paper 4: holds, in lists of calls and on lent buffers that no list of calls leaves.

mod common;

use common::*;
use reference::boundary::located;
use reference::store::{Buffers, Part, Session};

/// Sessions 0 and 1 run on cells 0 and 1 with values 3 and 5: 0 holds cell 1 and changes cell 0, 1 holds cell 0 and changes cell 1.
fn crosswise() -> Buffers {
    let mut buffers = store(&[(2, 3), (2, 5)]);
    run(&mut buffers, &[(begin(0), number(100)), (begin(1), number(100)), (hold(0, 1), value(5)), (hold(1, 0), value(3))]);
    run(&mut buffers, &[(write(0, 0, 4), number(100)), (write(1, 1, 6), number(100))]);
    buffers
}

/// The words of session 3's entries.
fn words(buffers: &Buffers, entries: usize) -> &[u32] {
    &buffers.logs[128 * 3..128 * 3 + 4 * entries]
}

#[test]
fn of_two_that_hold_crosswise_one_is_rolled_back() {
    let mut buffers = crosswise();
    assert_eq!(buffers.logs[..8], [1, 5, 5, 2, 0, 3, 4, 1]);
    assert_eq!(buffers.logs[128..136], [0, 3, 3, 2, 1, 5, 6, 1]);
    run(&mut buffers, &[(seal(0), number(102)), (seal(1), number(102))]);
    assert_eq!(buffers.readers, [3, 3]);
    run(&mut buffers, &[(advance(0), waiting(1)), (advance(1), number(6))]);
    assert_eq!((&buffers.readers[..], &buffers.claimants[..]), (&[1, 1][..], &[0, 16][..]));
    for answer in [103, 103, 103, 103, 103, 105] {
        run(&mut buffers, &[(advance(0), number(answer))]);
    }
    assert_eq!(buffers.values, [4, 5]);
    assert_eq!((buffers.readers, buffers.claimants, buffers.exclusives), (vec![0, 0], vec![16, 16], vec![0, 0]));
}

#[test]
fn one_that_comes_after_finds_what_the_other_published() {
    let mut buffers = crosswise();
    run(&mut buffers, &[(seal(0), number(102)), (seal(1), number(102)), (advance(1), waiting(1)), (advance(0), number(6))]);
    for answer in [103, 103, 103, 103, 103, 105] {
        run(&mut buffers, &[(advance(1), number(answer))]);
    }
    run(&mut buffers, &[(begin(0), number(100)), (hold(0, 1), value(6)), (write(0, 0, 2), number(100)), (seal(0), number(102))]);
    for answer in [103, 103, 103, 103, 103, 105] {
        run(&mut buffers, &[(advance(0), number(answer))]);
    }
    assert_eq!(buffers.values, [2, 6]);
}

#[test]
fn a_held_cell_waits_for_its_readers_and_keeps_others_out() {
    let mut buffers = store_of(2);
    run(&mut buffers, &[(begin(0), number(100)), (begin(1), number(100)), (hold(0, 0), value(3)), (read(1, 0), value(3))]);
    run(&mut buffers, &[(seal(0), number(102)), (advance(0), waiting(1)), (begin(2), number(100)), (read(2, 0), number(6))]);
    run(&mut buffers, &[(begin(2), number(100)), (hold(2, 0), number(6)), (begin(2), number(100)), (write(2, 0, 3), number(6))]);
    run(&mut buffers, &[(seal(1), number(105)), (advance(0), number(103)), (advance(0), number(103)), (advance(0), number(105))]);
    run(&mut buffers, &[(begin(2), number(100)), (hold(2, 0), value(3))]);
}

#[test]
fn a_hold_alone_publishes_the_value_found() {
    let mut buffers = store_of(1);
    run(&mut buffers, &[(begin(0), number(100)), (hold(0, 0), value(3)), (seal(0), number(102))]);
    let mut seen = Vec::new();
    for answer in [103, 103, 105] {
        run(&mut buffers, &[(advance(0), number(answer))]);
        seen.push((buffers.sessions[0], buffers.values[0], buffers.readers[0], buffers.claimants[0], buffers.exclusives[0]));
    }
    let record = |phase, count| Session { phase, count, next: 0 };
    assert_eq!(seen, [(record(3, 1), 3, 1, 0, 1), (record(4, 1), 3, 1, 0, 1), (record(0, 0), 3, 0, 16, 0)]);
    assert_eq!(buffers.logs[..4], [0, 3, 3, 2]);
}

#[test]
fn hold_and_write_in_either_order_leave_both_marks() {
    let mut buffers = store_of(2);
    run(&mut buffers, &[(begin(0), number(100)), (hold(0, 0), value(3)), (write(0, 0, 5), number(100)), (read(0, 0), value(5))]);
    run(&mut buffers, &[(write(0, 1, 6), number(100)), (hold(0, 1), value(6)), (hold(0, 1), value(6)), (hold(0, 0), value(5))]);
    assert_eq!(buffers.logs[..8], [0, 3, 5, 3, 1, 3, 6, 3]);
    run(&mut buffers, &[(seal(0), number(102))]);
    for answer in [103, 103, 103, 103, 103, 105] {
        run(&mut buffers, &[(advance(0), number(answer))]);
    }
    assert_eq!(buffers.values, [5, 6]);
}

#[test]
fn a_held_cell_written_back_still_counts_as_written() {
    for calls in [[hold(0, 0), write(0, 0, 3)], [write(0, 0, 3), hold(0, 0)]] {
        let mut buffers = store_of(1);
        run(&mut buffers, &[(begin(0), number(100))]);
        calls.iter().for_each(|call| assert!(buffers.call(*call).number >= 100));
        assert_eq!(buffers.logs[..4], [0, 3, 3, 3]);
        run(
            &mut buffers,
            &[(seal(0), number(102)), (begin(1), number(100)), (write(1, 0, 7), number(100)), (seal(1), number(102))],
        );
        run(&mut buffers, &[(advance(1), waiting(1)), (advance(0), number(6))]);
    }
}

#[test]
fn a_dropped_write_beside_a_held_cell_is_let_go() {
    let mut buffers = store_of(3);
    run(&mut buffers, &[(begin(0), number(100)), (hold(0, 1), value(3)), (write(0, 0, 3), number(100)), (read(0, 2), value(3))]);
    run(&mut buffers, &[(seal(0), number(102))]);
    assert_eq!(buffers.readers, [0, 1, 0]);
    run(&mut buffers, &[(advance(0), number(103)), (advance(0), number(103)), (advance(0), number(105))]);
}

#[test]
fn a_hold_is_a_read_that_leaves_2_in_the_fourth_word() {
    let mut read_only = store_of(2);
    run(&mut read_only, &[(begin(3), number(100)), (read(3, 1), value(3))]);
    let mut held = store_of(2);
    run(&mut held, &[(begin(3), number(100)), (hold(3, 1), value(3))]);
    assert_eq!(words(&held, 1), [1, 3, 3, 2]);
    read_only.logs[128 * 3 + 3] = 2;
    assert_eq!(held, read_only);
    run(&mut held, &[(read(3, 1), value(3))]);
    assert_eq!(read_many(&mut held, 3, &[1, 0], 2), (101, 2, vec![3, 3]));
    assert_eq!(words(&held, 2), [1, 3, 3, 2, 0, 3, 3, 0]);
}

#[test]
fn a_mark_keeps_the_other_and_clears_higher_bits() {
    for (before, held, written) in [
        (0, 2, 1),
        (1, 3, 1),
        (2, 2, 3),
        (3, 3, 3),
        (4_294_967_292, 2, 1),
        (4_294_967_293, 3, 1),
        (4_294_967_294, 2, 3),
        (4_294_967_295, 3, 3),
        (4, 2, 1),
        (0x8000_0001, 3, 1),
        (0x8000_0002, 2, 3),
    ] {
        let mut buffers = entered(1, &[[1, 6, 7, before]]);
        run(&mut buffers, &[(hold(3, 1), value(7))]);
        assert_eq!(words(&buffers, 1), [1, 6, 7, held], "{}", before);
        let mut buffers = entered(1, &[[1, 6, 7, before]]);
        run(&mut buffers, &[(write(3, 1, 8), number(100))]);
        assert_eq!(words(&buffers, 1), [1, 6, 8, written], "{}", before);
        let mut buffers = entered(1, &[[1, 6, 7, before]]);
        run(&mut buffers, &[(read(3, 1), value(7)), (peek(3, 1), number(100))]);
        assert_eq!(read_many(&mut buffers, 3, &[1], 1), (101, 1, vec![7]));
        assert_eq!(words(&buffers, 1), [1, 6, 7, before]);
    }
}

#[test]
fn the_first_entry_is_marked() {
    let mut buffers = entered(1, &[[0, 3, 3, 0], [1, 3, 4, 5], [1, 3, 5, 2], [0, 3, 6, 3]]);
    run(&mut buffers, &[(hold(3, 1), value(4)), (hold(3, 0), value(3))]);
    assert_eq!(words(&buffers, 4), [0, 3, 3, 2, 1, 3, 4, 3, 1, 3, 5, 2, 0, 3, 6, 3]);
}

#[test]
fn a_claimed_cell_is_6_and_a_known_one_needs_no_lock() {
    for claimant in [0, 3, 200] {
        let mut buffers = entered(1, &[[1, 3, 4, 3]]);
        buffers.readers = vec![9, 9, 9];
        buffers.claimants = vec![claimant, 3, 3];
        buffers.exclusives = vec![1, 1, 1];
        run(&mut buffers, &[(hold(3, 1), value(4)), (hold(3, 0), number(6))]);
        assert_eq!(buffers.sessions[3], Session::default());
        assert_eq!((&buffers.readers[..], &buffers.claimants[..]), (&[9, 1, 9][..], &[claimant, 16, 3][..]));
        assert_eq!((&buffers.exclusives[..], words(&buffers, 2)), (&[1, 0, 1][..], &[1, 3, 4, 3, 0, 0, 0, 0][..]));
    }
}

#[test]
fn a_full_log_holds_its_own_cells_alone() {
    let entries: Vec<[u32; 4]> = (0..32).map(|_| [1, 3, 4, 0]).collect();
    let mut buffers = entered(1, &entries);
    buffers.claimants[0] = 7;
    let before = buffers.clone();
    run(&mut buffers, &[(hold(3, 0), number(5)), (hold(3, 2), number(5))]);
    assert_eq!(buffers, before);
    run(&mut buffers, &[(hold(3, 1), value(4))]);
    assert_eq!(words(&buffers, 2), [1, 3, 4, 2, 1, 3, 4, 0]);
    let mut buffers = store_of(33);
    run(&mut buffers, &[(begin(0), number(100))]);
    (0..32).for_each(|cell| run(&mut buffers, &[(hold(0, cell), value(3))]));
    run(&mut buffers, &[(hold(0, 32), number(5)), (hold(0, 31), value(3)), (hold(0, 33), number(3))]);
}

#[test]
fn a_hold_is_refused_as_a_read_is() {
    let mut buffers = entered(1, &[]);
    let before = buffers.clone();
    for cell in [3, 4, 1024, 65_536, u32::MAX] {
        run(&mut buffers, &[(hold(3, cell), number(3))]);
    }
    run(&mut buffers, &[(hold(16, 9), number(1)), (hold(4, 9), number(2))]);
    buffers.sessions[4].phase = 5;
    run(&mut buffers, &[(hold(4, 9), number(9)), (hold(16, 9), number(1))]);
    buffers.sessions[4].phase = 0;
    assert_eq!(buffers, before);
    for phase in 2..=4 {
        run(&mut entered(phase, &[[0, 3, 3, 2]]), &[(hold(3, 0), number(2)), (hold(3, 9), number(2))]);
    }
    buffers.logs.pop();
    run(&mut buffers, &[(hold(16, 9), number(7))]);
}

#[test]
fn peek_goes_by_the_written_mark_alone() {
    for marks in [2, 6, 0xffff_fffe] {
        let buffers = entered(1, &[[1, 6, 7, marks]]);
        assert_eq!(located(&buffers, buffers.peek(3, 1)), Part::Value(1));
    }
    for marks in [1, 3, 7, u32::MAX] {
        let buffers = entered(1, &[[1, 6, 7, marks]]);
        assert_eq!(located(&buffers, buffers.peek(3, 1)), Part::Log(128 * 3 + 2));
    }
}

#[test]
fn any_bits_above_the_marks_may_stand() {
    for (marks, answer) in
        [(2, 102), (3, 102), (6, 102), (0xffff_fffe, 102), (0, 105), (1, 105), (4, 105), (8, 105), (0xffff_fffd, 105)]
    {
        let mut buffers = entered(1, &[[0, 6, 6, marks]]);
        buffers.readers[0] = 8;
        run(&mut buffers, &[(seal(3), number(answer))]);
        assert_eq!(buffers.readers[0], if answer == 102 { 8 } else { 0 }, "{}", marks);
        assert_eq!(words(&buffers, 1), [0, 6, 6, marks]);
        for phase in 2..=4 {
            match answer {
                105 => all_refused(&entered(phase, &[[0, 6, 6, marks]]), 9),
                _ => run(&mut entered(phase, &[[0, 6, 6, marks]]), &[(begin(3), number(2))]),
            }
        }
    }
}

#[test]
fn the_current_value_is_published_whatever_was_found_or_written() {
    for (entry, published) in
        [([1, 6, 6, 2], 6), ([1, 6, 7, 2], 7), ([1, 6, 7, 3], 7), ([1, 3, 6, 2], 6), ([1, 3, 3, 3], 3), ([1, 6, 6, 3], 6)]
    {
        let mut buffers = entered(3, &[entry]);
        run(&mut buffers, &[(advance(3), number(103))]);
        assert_eq!(buffers.values, [3, published, 3], "{:?}", entry);
    }
}

#[test]
fn the_first_entry_of_a_cell_decides() {
    for (entries, answer, readers) in [
        ([[1, 6, 6, 0], [1, 6, 6, 2]], 105, [0, 0, 0]),
        ([[1, 6, 6, 1], [1, 6, 7, 3]], 105, [0, 0, 0]),
        ([[1, 6, 6, 2], [1, 6, 6, 0]], 102, [0, 8, 0]),
        ([[1, 6, 6, 3], [1, 6, 7, 1]], 102, [0, 8, 0]),
    ] {
        let mut buffers = entered(1, &entries);
        buffers.readers[1] = 8;
        run(&mut buffers, &[(seal(3), number(answer))]);
        assert_eq!(buffers.readers, readers, "{:?}", entries);
    }
    for phase in 2..=4 {
        all_refused(&entered(phase, &[[1, 6, 6, 0], [1, 6, 6, 2]]), 9);
        all_refused(&entered(phase, &[[1, 6, 7, 4], [1, 6, 7, 3]]), 9);
    }
    let mut buffers = entered(3, &[[1, 6, 5, 2], [1, 6, 7, 1]]);
    run(&mut buffers, &[(advance(3), number(103))]);
    assert_eq!(buffers.values, [3, 5, 3]);
}

#[test]
fn held_cells_count_in_nine_where_they_are_not_below_next() {
    for phase in 2..=4 {
        let mut buffers = entered(phase, &[[1, 3, 3, 2], [2, 3, 3, 1], [0, 3, 4, 1]]);
        buffers.sessions[3].next = 1;
        run(&mut buffers, &[(begin(3), number(2)), (hold(3, 0), number(2))]);
        for next in [2, 3, 65_535] {
            buffers.sessions[3].next = next;
            all_refused(&buffers, 9);
        }
    }
}

#[test]
fn an_advance_takes_held_and_changed_cells_in_the_order_of_cells() {
    let entries = [[2, 3, 4, 1], [0, 3, 3, 2], [1, 3, 3, 1]];
    for (phase, answers, after) in [(2, [103, 103], 3), (3, [103, 103], 4), (4, [103, 105], 0)] {
        let mut buffers = entered(phase, &entries);
        buffers.readers = vec![8, 8, 8];
        buffers.claimants = vec![if phase == 2 { 16 } else { 3 }; 3];
        run(&mut buffers, &[(advance(3), number(answers[0]))]);
        assert_eq!(buffers.sessions[3], Session { phase, count: 3, next: 1 });
        run(&mut buffers, &[(advance(3), number(answers[1]))]);
        assert_eq!(buffers.sessions[3].phase, after);
        assert_eq!(buffers.readers, if phase == 4 { [0, 8, 0] } else { [8, 8, 8] });
        assert_eq!(buffers.values, if phase == 3 { [3, 3, 4] } else { [3, 3, 3] });
    }
}

#[test]
fn a_roll_back_frees_held_cells_and_leaves_their_marks() {
    for phase in [1, 2] {
        let mut buffers = entered(phase, &[[0, 3, 3, 2], [1, 3, 4, 3]]);
        buffers.readers = vec![8, 8, 8];
        buffers.claimants = vec![3, 3, 3];
        run(&mut buffers, &[(abandon(3), number(100))]);
        assert_eq!((&buffers.readers[..], &buffers.claimants[..]), (&[0, 0, 8][..], &[16, 16, 3][..]));
        assert_eq!(words(&buffers, 2), [0, 3, 3, 2, 1, 3, 4, 3]);
        run(&mut buffers, &[(begin(3), number(100)), (read(3, 2), number(6))]);
    }
}

#[test]
fn an_entry_begins_without_marks_over_old_words() {
    let mut buffers = entered(1, &[[0, 3, 4, 3]]);
    buffers.sessions[3].count = 0;
    run(&mut buffers, &[(read(3, 0), value(3))]);
    assert_eq!(words(&buffers, 1), [0, 3, 3, 0]);
    buffers.sessions[3].count = 0;
    buffers.logs[128 * 3 + 3] = 7;
    run(&mut buffers, &[(write(3, 0, 4), number(100))]);
    assert_eq!(words(&buffers, 1), [0, 3, 4, 1]);
    buffers.sessions[3].count = 0;
    run(&mut buffers, &[(hold(3, 0), value(3)), (seal(3), number(102))]);
    assert_eq!(words(&buffers, 1), [0, 3, 3, 2]);
}
