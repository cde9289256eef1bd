//! Document 02, Paper 6: how many are in the way of a session that is told to wait.

mod common;

use common::*;
use reference::store::{Answer, Buffers, Session};
use reference::waits::in_the_way;

/// A store of two cells in which each of these sessions has read cell 0.
fn read_by(sessions: &[u8]) -> Buffers {
    let mut buffers = store_of(2);
    for session in sessions {
        run(&mut buffers, &[(begin(*session), number(100)), (read(*session, 0), value(3))]);
    }
    buffers
}

/// The session begins, changes cell 0 and seals.
fn sealed(buffers: &mut Buffers, session: u8) {
    run(buffers, &[(begin(session), number(100)), (write(session, 0, 4), number(100)), (seal(session), number(102))]);
}

/// The set of these sessions.
fn set(sessions: &[u8]) -> u16 {
    sessions.iter().fold(0, |set, session| set | 1 << session)
}

#[test]
fn the_number_falls_as_readers_leave() {
    let mut buffers = read_by(&[1, 2, 7]);
    sealed(&mut buffers, 0);
    run(&mut buffers, &[(advance(0), waiting(3)), (advance(0), waiting(3)), (seal(2), number(105)), (advance(0), waiting(2))]);
    run(&mut buffers, &[(abandon(7), number(100)), (advance(0), waiting(1)), (seal(1), number(105)), (advance(0), number(103))]);
}

#[test]
fn fifteen_others_are_in_the_way_of_any_session() {
    for session in 0..16 {
        let others: Vec<u8> = (0..16).filter(|other| *other != session).collect();
        let mut buffers = read_by(&others);
        sealed(&mut buffers, session);
        run(&mut buffers, &[(advance(session), waiting(15))]);
        assert_eq!(buffers.readers[0], 0xffff);
        assert_eq!(in_the_way(&buffers, session, 0), 15);
    }
}

#[test]
fn a_promoting_session_counts_where_it_publishes_the_cell_and_not_where_it_has_let_it_go() {
    let mut buffers = read_by(&[1, 2]);
    run(&mut buffers, &[(begin(3), number(100)), (hold(3, 0), value(3)), (seal(3), number(102))]);
    run(&mut buffers, &[(begin(4), number(100)), (write(4, 0, 3), number(100)), (write(4, 1, 7), number(100))]);
    sealed(&mut buffers, 0);
    run(&mut buffers, &[(advance(0), waiting(4)), (seal(4), number(102)), (advance(0), waiting(3))]);
    run(&mut buffers, &[(write(1, 0, 5), number(100)), (seal(1), number(102)), (advance(0), waiting(3))]);
    run(&mut buffers, &[(advance(1), number(6)), (advance(0), waiting(2)), (advance(3), number(6)), (advance(0), waiting(1))]);
}

#[test]
fn readers_of_another_cell_are_not_in_the_way() {
    let mut buffers = read_by(&[1]);
    run(&mut buffers, &[(begin(2), number(100)), (read(2, 1), value(3)), (begin(3), number(100)), (read(3, 1), value(3))]);
    sealed(&mut buffers, 0);
    run(&mut buffers, &[(advance(0), waiting(1)), (abandon(1), number(100)), (advance(0), number(103))]);
}

#[test]
fn each_cell_to_promote_has_its_own_number() {
    let mut buffers = read_by(&[1]);
    run(&mut buffers, &[(read(1, 1), value(3)), (begin(2), number(100)), (read(2, 1), value(3))]);
    run(&mut buffers, &[(begin(0), number(100)), (write(0, 1, 5), number(100)), (write(0, 0, 4), number(100))]);
    run(&mut buffers, &[(seal(0), number(102)), (advance(0), waiting(1)), (begin(3), number(100)), (read(3, 1), value(3))]);
    run(&mut buffers, &[(seal(1), number(105)), (advance(0), number(103)), (advance(0), waiting(2))]);
}

#[test]
fn the_own_bit_is_left_aside_whether_it_is_in_the_set_or_not() {
    for others in [&[0][..], &[15], &[2, 4], &[7, 8], &[0, 1, 2, 4, 14, 15], &[0, 1, 2, 4, 5, 6, 7, 8, 9, 10, 11, 12, 13, 14, 15]]
    {
        for own in [0, 8] {
            let mut buffers = entered(2, &[[1, 3, 4, 1], [2, 3, 4, 1]]);
            buffers.readers = vec![0xffff, set(others) | own, 0xffff];
            let mut claimed = buffers.clone();
            claimed.claimants[1] = 3;
            run(&mut buffers, &[(advance(3), waiting(others.len() as u32))]);
            assert_eq!(buffers, claimed);
        }
    }
}

/// A transaction with a wait in it: values come with 101 and 104 alone.
#[test]
fn the_value_of_the_other_answers_is_0() {
    let mut buffers = read_by(&[1, 2]);
    run(&mut buffers, &[(begin(5), number(100)), (write(5, 0, 6), number(100)), (write(5, 1, 6), number(100))]);
    run(&mut buffers, &[(seal(5), number(102)), (begin(6), number(100)), (write(6, 1, 5), number(100)), (seal(6), number(102))]);
    run(&mut buffers, &[(advance(5), waiting(2)), (begin(3), number(100)), (read(3, 0), number(6)), (advance(1), number(2))]);
    run(&mut buffers, &[(advance(6), waiting(1)), (seal(1), number(105)), (seal(2), number(105)), (advance(5), number(103))]);
    run(
        &mut buffers,
        &[(advance(5), number(6)), (advance(6), number(103)), (advance(6), number(103)), (advance(6), number(105))],
    );
}

/// What the theorem counts: running sessions with the cell in their log, and promoting ones that publish it; no others, and not the session itself.
#[test]
fn in_the_way_goes_by_records_and_logs() {
    let mut buffers = entered(2, &[[0, 3, 4, 1]]);
    let mut other = |session: usize, phase: u8, entry: [u32; 4], number: u32| {
        buffers.sessions[session] = Session { phase, count: 1, next: 0 };
        buffers.logs[128 * session..128 * session + 4].copy_from_slice(&entry);
        assert_eq!(in_the_way(&buffers, 3, 0), number, "session {}", session);
    };
    other(0, 1, [0, 3, 3, 0], 1);
    other(1, 1, [1, 3, 3, 0], 1);
    other(2, 2, [0, 3, 4, 1], 2);
    other(4, 2, [0, 3, 3, 2], 3);
    other(5, 2, [0, 3, 3, 1], 3);
    other(6, 2, [1, 3, 4, 1], 3);
    other(7, 0, [0, 3, 4, 1], 3);
    other(8, 3, [0, 3, 4, 1], 3);
    other(9, 4, [0, 3, 4, 1], 3);
    other(15, 1, [0, 3, 4, 3], 4);
    buffers.readers[0] = 0xffff;
    assert_eq!(in_the_way(&buffers, 3, 0), 4);
    assert_eq!(buffers.advance(3), Answer { number: 104, value: 15 });
}
