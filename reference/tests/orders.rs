//! Document 01, 'Orders to try' and the listing, on the store's calls.

mod common;

use common::*;
use reference::store::{Answer, Buffers, Call};

/// The listing's first nine calls with their answers.
fn up_to_line_nine() -> Vec<(Call, Answer)> {
    vec![
        (begin(0), number(100)),
        (begin(1), number(100)),
        (read(0, 0), value(3)),
        (read(1, 0), value(3)),
        (write(0, 0, 4), number(100)),
        (write(1, 0, 2), number(100)),
        (seal(0), number(102)),
        (seal(1), number(102)),
        (advance(0), waiting(1)),
    ]
}

/// Both sessions read cells 0 and 1; 0 writes cell 0 and 1 writes cell 1.
fn skewed() -> Buffers {
    let mut buffers = store(&[(2, 3), (2, 5)]);
    run(
        &mut buffers,
        &[
            (begin(0), number(100)),
            (begin(1), number(100)),
            (read(0, 0), value(3)),
            (read(0, 1), value(5)),
            (read(1, 0), value(3)),
            (read(1, 1), value(5)),
            (write(0, 0, 4), number(100)),
            (write(1, 1, 6), number(100)),
        ],
    );
    buffers
}

#[test]
fn the_listing() {
    let mut buffers = store(&[(2, 3), (2, 5)]);
    run(&mut buffers, &up_to_line_nine());
    run(
        &mut buffers,
        &[(advance(1), number(6)), (advance(0), number(103)), (advance(0), number(103)), (advance(0), number(105))],
    );
    assert_eq!(buffers.values, [4, 5]);
    assert_eq!(buffers.readers, [0, 0]);
    assert_eq!(buffers.claimants, [16, 16]);
    assert_eq!(buffers.exclusives, [0, 0]);
}

#[test]
fn skew_commits_both() {
    let mut buffers = skewed();
    run(&mut buffers, &[(seal(0), number(102)), (seal(1), number(102))]);
    run(&mut buffers, &[(advance(0), number(103)), (advance(0), number(103)), (advance(0), number(105))]);
    run(&mut buffers, &[(advance(1), number(103)), (advance(1), number(103)), (advance(1), number(105))]);
    assert_eq!(buffers.values, [4, 6]);
}

#[test]
fn skew_with_both_advancing_in_turns_commits_both() {
    let mut buffers = skewed();
    run(&mut buffers, &[(seal(0), number(102)), (seal(1), number(102))]);
    run(&mut buffers, &[(advance(0), number(103)), (advance(1), number(103)), (advance(0), number(103))]);
    run(&mut buffers, &[(advance(1), number(103)), (advance(0), number(105)), (advance(1), number(105))]);
    assert_eq!(buffers.values, [4, 6]);
}

#[test]
fn skew_with_one_not_sealed_waits() {
    let mut buffers = skewed();
    run(&mut buffers, &[(seal(0), number(102)), (advance(0), waiting(1))]);
    assert_eq!(buffers.claimants, [0, 16]);
    assert_eq!(buffers.exclusives, [0, 0]);
}

#[test]
fn a_reader_after_line_nine_is_rolled_back() {
    let mut buffers = store(&[(2, 3), (2, 5)]);
    run(&mut buffers, &up_to_line_nine());
    run(&mut buffers, &[(begin(2), number(100)), (read(2, 0), number(6))]);
    assert_eq!(buffers.sessions[2].phase, 0);
}

#[test]
fn a_value_at_the_cap_is_written() {
    let mut buffers = store_of(1);
    run(&mut buffers, &[(begin(0), number(100)), (write(0, 0, 8), number(100))]);
}

#[test]
fn a_value_above_the_cap_is_refused() {
    let mut buffers = store_of(1);
    run(&mut buffers, &[(begin(0), number(100)), (write(0, 0, 9), number(4))]);
}

#[test]
fn every_class_has_its_cap() {
    let caps = [1, 6, 8, 10, 12, 15, 18, 21, 24, 27, 30, 36, 42, 48, 60];
    for (class, cap) in caps.into_iter().enumerate() {
        let mut buffers = store(&[(class as u8, 0)]);
        run(&mut buffers, &[(begin(0), number(100)), (write(0, 0, cap + 1), number(4)), (write(0, 0, cap), number(100))]);
    }
    let mut buffers = store(&[(15, 0)]);
    run(&mut buffers, &[(begin(0), number(100)), (write(0, 0, u32::MAX), number(100)), (read(0, 0), value(u32::MAX))]);
}

#[test]
fn session_fifteen_begins() {
    run(&mut store_of(1), &[(begin(15), number(100))]);
}

#[test]
fn session_sixteen_is_refused() {
    run(&mut store_of(1), &[(begin(16), number(1)), (begin(255), number(1))]);
}

#[test]
fn begin_twice_is_refused() {
    run(&mut store_of(1), &[(begin(0), number(100)), (begin(0), number(2))]);
}

#[test]
fn begin_and_seal_commits() {
    run(&mut store_of(1), &[(begin(0), number(100)), (seal(0), number(105))]);
}

#[test]
fn abandon_while_publishing_is_refused() {
    let mut buffers = store_of(1);
    run(
        &mut buffers,
        &[(begin(0), number(100)), (write(0, 0, 5), number(100)), (seal(0), number(102)), (advance(0), number(103))],
    );
    assert_eq!(buffers.sessions[0].phase, 3);
    run(&mut buffers, &[(abandon(0), number(2)), (advance(0), number(103)), (abandon(0), number(2)), (advance(0), number(105))]);
    assert_eq!(buffers.values, [5]);
}

#[test]
fn the_last_cell_reads_and_the_next_is_refused() {
    for n in [1, 2, 1024] {
        let mut buffers = store_of(n);
        run(&mut buffers, &[(begin(0), number(100)), (read(0, n as u32 - 1), value(3)), (read(0, n as u32), number(3))]);
    }
}

#[test]
fn thirty_two_cells_fit_in_a_log() {
    let mut buffers = store_of(33);
    run(&mut buffers, &[(begin(0), number(100))]);
    for cell in 0..32 {
        run(&mut buffers, &[(read(0, cell), value(3))]);
    }
    let full = buffers.clone();
    run(&mut buffers, &[(read(0, 32), number(5)), (hold(0, 32), number(5)), (write(0, 32, 1), number(5))]);
    assert_eq!(buffers, full);
    run(&mut buffers, &[(read(0, 31), value(3)), (hold(0, 31), value(3)), (write(0, 0, 1), number(100)), (read(0, 0), value(1))]);
}

#[test]
fn a_store_has_one_to_1024_cells() {
    for (n, answer) in [(0, 7), (1, 100), (1024, 100), (1025, 7)] {
        assert_eq!(Buffers::new(vec![0; n], vec![0; n]).set_up(), number(answer), "n is {}", n);
    }
}

#[test]
fn lost_updates_do_not_happen() {
    let mut buffers = store(&[(15, 10)]);
    run(&mut buffers, &[(begin(0), number(100)), (begin(1), number(100)), (read(0, 0), value(10)), (read(1, 0), value(10))]);
    run(
        &mut buffers,
        &[(write(0, 0, 11), number(100)), (seal(0), number(102)), (advance(0), waiting(1)), (advance(0), waiting(1))],
    );
    run(
        &mut buffers,
        &[(abandon(1), number(100)), (advance(0), number(103)), (advance(0), number(103)), (advance(0), number(105))],
    );
    assert_eq!(buffers.values, [11]);
}

#[test]
fn nothing_is_published_before_the_last_promotion_or_freed_before_the_last_publication() {
    let mut buffers = store_of(2);
    run(
        &mut buffers,
        &[(begin(0), number(100)), (write(0, 1, 5), number(100)), (write(0, 0, 4), number(100)), (seal(0), number(102))],
    );
    let mut seen = Vec::new();
    for answer in [103, 103, 103, 103, 103, 105] {
        run(&mut buffers, &[(advance(0), number(answer))]);
        seen.push((buffers.values.clone(), buffers.claimants.clone(), buffers.exclusives.clone()));
    }
    let expected = [
        (vec![3, 3], vec![0, 16], vec![1, 0]),
        (vec![3, 3], vec![0, 0], vec![1, 1]),
        (vec![4, 3], vec![0, 0], vec![1, 1]),
        (vec![4, 5], vec![0, 0], vec![1, 1]),
        (vec![4, 5], vec![16, 0], vec![0, 1]),
        (vec![4, 5], vec![16, 16], vec![0, 0]),
    ];
    assert_eq!(seen, expected);
}
