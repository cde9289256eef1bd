//! Calls on lent buffers with contents that no list of calls leaves: each refusal, the order of the refusals, several entries
//! for one cell, odd fourth words and odd claimants.

mod common;

use common::*;
use reference::boundary::located;
use reference::store::{Part, Session};

#[test]
fn a_wrong_length_is_7_before_all_else() {
    let mut damaged = entered(9, &[]);
    damaged.sessions[3].count = 200;
    for wrong in 0..6 {
        for longer in [true, false] {
            let mut buffers = damaged.clone();
            let n = if longer { 4 } else { 2 };
            match wrong {
                0 => buffers.values.resize(n, 0),
                1 => buffers.classes.resize(n, 0),
                2 => buffers.readers.resize(n, 0),
                3 => buffers.claimants.resize(n, 16),
                4 => buffers.exclusives.resize(n, 0),
                _ => buffers.logs.resize(if longer { 2049 } else { 2047 }, 0),
            }
            all_refused(&buffers, 7);
            let before = buffers.clone();
            assert_eq!(buffers.begin(16), number(7));
            assert_eq!(buffers.set_up(), number(7));
            assert_eq!(buffers, before);
        }
    }
}

#[test]
fn a_session_above_15_is_1_even_with_a_cell_that_is_not_there() {
    let mut buffers = store_of(3);
    let before = buffers.clone();
    for session in [16, 17, 255] {
        for call in [
            begin(session),
            read(session, 9),
            hold(session, 9),
            write(session, 9, 9),
            seal(session),
            advance(session),
            abandon(session),
            peek(session, 9),
        ] {
            assert_eq!(buffers.call(call), number(1));
        }
    }
    assert_eq!(buffers, before);
}

#[test]
fn a_phase_above_4_is_9_on_every_call() {
    for phase in [5, 6, 128, 255] {
        all_refused(&entered(phase, &[]), 9);
    }
}

#[test]
fn a_count_above_32_is_9_in_phases_1_to_4() {
    for phase in 1..=4 {
        for count in [33, 34, 255] {
            let mut buffers = entered(phase, &[[0, 0, 1, 1]]);
            buffers.sessions[3].count = count;
            all_refused(&buffers, 9);
        }
    }
}

#[test]
fn an_entered_cell_not_below_n_is_9_in_phases_1_to_4() {
    for phase in 1..=4 {
        for cell in [3, 4, 65_536, u32::MAX] {
            all_refused(&entered(phase, &[[0, 0, 1, 1], [cell, 0, 0, 0]]), 9);
        }
    }
}

#[test]
fn words_past_the_count_are_not_judged() {
    let mut buffers = entered(1, &[[0, 3, 3, 0], [u32::MAX, 0, 1, 1]]);
    buffers.sessions[3].count = 1;
    run(&mut buffers, &[(read(3, 0), value(3)), (seal(3), number(105))]);
}

#[test]
fn an_idle_session_is_judged_by_its_phase_alone() {
    let mut buffers = entered(0, &[[u32::MAX, 0, 1, 1]]);
    buffers.sessions[3] = Session { phase: 0, count: 255, next: 65_535 };
    for call in [read(3, 0), hold(3, 0), write(3, 0, 1), seal(3), advance(3), abandon(3), peek(3, 0)] {
        assert_eq!(buffers.call(call), number(2));
    }
    assert_eq!(buffers.begin(3), number(100));
    assert_eq!(buffers.sessions[3], Session { phase: 1, count: 0, next: 0 });
}

#[test]
fn no_written_cell_at_or_above_next_is_9_in_phases_2_to_4() {
    for phase in 2..=4 {
        all_refused(&entered(phase, &[]), 9);
        all_refused(&entered(phase, &[[0, 0, 1, 0], [1, 0, 1, 4]]), 9);
        let mut past = entered(phase, &[[0, 0, 1, 1], [1, 0, 1, 1]]);
        for next in [2, 3, 65_535] {
            past.sessions[3].next = next;
            all_refused(&past, 9);
        }
    }
    let mut running = entered(1, &[[0, 0, 0, 0]]);
    running.sessions[3].next = 65_535;
    run(&mut running, &[(read(3, 0), value(0))]);
}

#[test]
fn written_is_judged_by_the_first_entry_of_a_cell() {
    for phase in 2..=4 {
        all_refused(&entered(phase, &[[1, 0, 1, 0], [1, 0, 1, 1]]), 9);
    }
    let mut buffers = entered(3, &[[1, 0, 7, 1], [1, 0, 8, 1], [1, 0, 9, 0]]);
    run(&mut buffers, &[(advance(3), number(103))]);
    assert_eq!(buffers.values, [3, 7, 3]);
    assert_eq!(buffers.sessions[3], Session { phase: 4, count: 3, next: 0 });
}

#[test]
fn nine_comes_before_two() {
    let buffers = entered(2, &[[5, 0, 1, 1]]);
    all_refused(&buffers, 9);
    let mut fitting = entered(2, &[[0, 0, 1, 1]]);
    run(&mut fitting, &[(begin(3), number(2)), (read(3, 0), number(2)), (read(3, 9), number(2)), (peek(3, 9), number(2))]);
}

#[test]
fn the_fourth_word_is_judged_by_its_two_lowest_bits() {
    let mut buffers = entered(1, &[[0, 3, 4, 4], [1, 3, 4, u32::MAX], [2, 3, 4, 0x8000_0000]]);
    buffers.readers = vec![8, 8, 8];
    run(&mut buffers, &[(seal(3), number(102))]);
    assert_eq!(buffers.readers, [0, 8, 0]);
    assert_eq!(buffers.logs[128 * 3 + 7], u32::MAX);
}

#[test]
fn a_write_sets_the_fourth_word_of_the_first_entry_to_1_or_to_3_where_it_is_held() {
    for (before, after) in [(0, 1), (1, 1), (4, 1), (5, 1), (2, 3), (3, 3), (6, 3), (7, 3)] {
        let mut buffers = entered(1, &[[1, 3, 4, before], [1, 3, 5, 8 + (before ^ 2)]]);
        run(&mut buffers, &[(read(3, 1), value(4)), (write(3, 1, 2), number(100)), (read(3, 1), value(2))]);
        assert_eq!(buffers.logs[128 * 3..128 * 3 + 8], [1, 3, 2, after, 1, 3, 5, 8 + (before ^ 2)]);
        assert_eq!(buffers.sessions[3].count, 2);
    }
}

#[test]
fn a_known_cell_needs_no_lock_and_no_room() {
    let entries: Vec<[u32; 4]> = (0..32).map(|_| [1, 3, 4, 0]).collect();
    let mut buffers = entered(1, &entries);
    buffers.claimants = vec![0, 5, 0];
    run(&mut buffers, &[(read(3, 1), value(4)), (hold(3, 1), value(4)), (write(3, 1, 2), number(100))]);
    assert_eq!(buffers.sessions[3].phase, 1);
}

#[test]
fn a_full_log_comes_before_a_claim() {
    let entries: Vec<[u32; 4]> = (0..32).map(|_| [1, 3, 4, 0]).collect();
    let mut buffers = entered(1, &entries);
    buffers.claimants[0] = 7;
    let before = buffers.clone();
    run(&mut buffers, &[(read(3, 0), number(5)), (hold(3, 0), number(5)), (write(3, 0, 1), number(5)), (peek(3, 0), number(14))]);
    assert_eq!(buffers, before);
}

#[test]
fn the_class_comes_before_the_cap_and_the_cap_before_the_log() {
    let entries: Vec<[u32; 4]> = (0..32).map(|_| [1, 3, 4, 0]).collect();
    let mut buffers = entered(1, &entries);
    buffers.classes = vec![16, 2, 2];
    run(
        &mut buffers,
        &[(write(3, 3, 9), number(3)), (write(3, 0, 9), number(8)), (write(3, 2, 9), number(4)), (write(3, 2, 8), number(5))],
    );
    run(&mut buffers, &[(read(3, 0), number(5))]);
}

#[test]
fn any_claimant_but_16_is_somebody() {
    for claimant in [0, 3, 15, 17, 200, 255] {
        for call in [read(3, 0), hold(3, 0), write(3, 0, 1)] {
            let mut buffers = entered(1, &[[1, 3, 4, 1], [2, 3, 3, 0]]);
            buffers.readers = vec![8, 8 | 1, 8];
            buffers.claimants = vec![claimant, 3, 4];
            buffers.exclusives = vec![1, 1, 1];
            run(&mut buffers, &[(call, number(6))]);
            assert_eq!(buffers.readers, [8, 1, 0]);
            assert_eq!(buffers.claimants, [claimant, 16, 4]);
            assert_eq!(buffers.exclusives, [1, 0, 1]);
            assert_eq!(buffers.sessions[3], Session::default());
            assert_eq!(buffers.logs[128 * 3..128 * 3 + 4], [1, 3, 4, 1]);
        }
    }
}

#[test]
fn a_class_above_15_does_not_hinder_a_read_or_a_hold() {
    let mut buffers = entered(1, &[]);
    buffers.classes = vec![99, 16, 2];
    run(&mut buffers, &[(read(3, 0), value(3)), (hold(3, 1), value(3))]);
}

#[test]
fn promotion_leaves_the_own_bit_aside() {
    let moved = number(103);
    for (readers, answer) in [(0, moved), (8, moved), (1, waiting(1)), (9, waiting(1)), (0x8000, waiting(1))] {
        for claimant in [16, 3] {
            let mut buffers = entered(2, &[[0, 3, 4, 1]]);
            buffers.readers[0] = readers;
            buffers.claimants[0] = claimant;
            run(&mut buffers, &[(advance(3), answer)]);
            assert_eq!(buffers.claimants[0], 3);
            assert_eq!(buffers.exclusives[0], if answer == moved { 1 } else { 0 });
            assert_eq!(buffers.readers[0], readers);
            assert_eq!(buffers.sessions[3].phase, if answer == moved { 3 } else { 2 });
        }
    }
}

#[test]
fn promotion_meets_another_claimant() {
    for claimant in [0, 15, 17, 255] {
        let mut buffers = entered(2, &[[0, 3, 4, 1], [1, 3, 4, 1]]);
        buffers.claimants = vec![3, claimant, 16];
        buffers.exclusives = vec![1, 1, 0];
        buffers.sessions[3].next = 1;
        run(&mut buffers, &[(advance(3), number(6))]);
        assert_eq!(buffers.claimants, [16, claimant, 16]);
        assert_eq!(buffers.exclusives, [0, 1, 0]);
        assert_eq!(buffers.values, [3, 3, 3]);
        assert_eq!(buffers.sessions[3], Session::default());
    }
}

#[test]
fn release_frees_whatever_stands_in_the_lock() {
    let mut buffers = entered(4, &[[2, 3, 4, 1], [0, 3, 4, 1]]);
    buffers.readers = vec![0xffff; 3];
    buffers.claimants = vec![9, 9, 200];
    buffers.exclusives = vec![7, 7, 7];
    run(&mut buffers, &[(advance(3), number(103))]);
    assert_eq!(buffers.sessions[3], Session { phase: 4, count: 2, next: 1 });
    run(&mut buffers, &[(advance(3), number(105))]);
    assert_eq!(buffers.readers, [0xfff7, 0xffff, 0xfff7]);
    assert_eq!(buffers.claimants, [16, 9, 16]);
    assert_eq!(buffers.exclusives, [0, 7, 0]);
    assert_eq!(buffers.sessions[3], Session::default());
}

#[test]
fn peek_hands_back_the_lent_words_themselves() {
    let buffers = entered(1, &[[1, 30, 31, 0], [2, 40, 41, 1], [1, 50, 51, 1]]);
    assert_eq!(located(&buffers, buffers.peek(3, 1)), Part::Value(1));
    assert_eq!(buffers.peek(3, 1), [3]);
    assert_eq!(located(&buffers, buffers.peek(3, 2)), Part::Log(128 * 3 + 6));
    assert_eq!(buffers.peek(3, 2), [41]);
    assert_eq!(buffers.peek_number(3, 1), number(100));
    for (session, cell, refusal) in [(3, 0, 14), (3, 3, 3), (4, 1, 2), (16, 1, 1)] {
        assert_eq!(buffers.peek_number(session, cell), number(refusal));
        assert!(buffers.peek(session, cell).is_empty());
    }
}

#[test]
fn abandon_rolls_back_in_phases_1_and_2_and_leaves_log_words() {
    for phase in [1, 2] {
        let mut buffers = entered(phase, &[[0, 3, 4, 1], [1, 3, 3, 0], [0, 3, 5, 0]]);
        buffers.readers = vec![8 | 2, 8, 8];
        buffers.claimants = vec![3, 5, 3];
        buffers.exclusives = vec![1, 1, 1];
        let logs = buffers.logs.clone();
        run(&mut buffers, &[(abandon(3), number(100))]);
        assert_eq!(buffers.readers, [2, 0, 8]);
        assert_eq!(buffers.claimants, [16, 5, 3]);
        assert_eq!(buffers.exclusives, [0, 1, 1]);
        assert_eq!(buffers.logs, logs);
    }
}

#[test]
fn set_up_empties_all_but_values_and_classes() {
    let mut buffers = entered(9, &[[7, 7, 7, 7]]);
    buffers.readers = vec![1, 2, 3];
    buffers.claimants = vec![1, 2, 3];
    buffers.exclusives = vec![1, 2, 3];
    buffers.logs.iter_mut().for_each(|word| *word = 77);
    assert_eq!(buffers.set_up(), number(100));
    assert_eq!(buffers, store_of(3));
}

#[test]
fn set_up_refuses_a_class_or_a_value_and_leaves_all_as_before() {
    for (class, value) in [(16, 0), (255, 0), (0, 2), (2, 9), (14, 61)] {
        let mut buffers = entered(9, &[[7, 7, 7, 7]]);
        buffers.claimants = vec![1, 2, 3];
        buffers.classes[2] = class;
        buffers.values[2] = value;
        let before = buffers.clone();
        assert_eq!(buffers.set_up(), number(8));
        assert_eq!(buffers, before);
    }
}
