//! Document 02, Paper 3: which entry of a session's log is a cell's, whatever the words past the entries hold.

mod common;

use common::*;
use reference::boundary::located;
use reference::store::{Answer, Buffers, Part, Session};

/// Where session 5's log begins.
const LOG: usize = 128 * 5;

/// A store of 40 cells of class 2 with value 3, and session 5 running: so many of these words are its entries, the others stand past them.
fn logged(count: usize, words: &[[u32; 4]]) -> Buffers {
    let mut buffers = store_of(40);
    buffers.sessions[5] = Session { phase: 1, count: count as u8, next: 0 };
    buffers.logs[LOG..LOG + 4 * words.len()].copy_from_slice(&words.concat());
    buffers
}

/// The words of 32 entries of cells 0 to 31: found 3, present 4, written.
fn full() -> Vec<[u32; 4]> {
    (0..32).map(|cell| [cell, 3, 4, 1]).collect()
}

/// Asserts that read, many reads, hold, write and peek of session 5 find the cell at this place.
fn found(buffers: &Buffers, cell: u32, place: usize) {
    let at = LOG + 4 * place;
    let current = buffers.logs[at + 2];
    let part = if buffers.logs[at + 3] % 2 == 1 { Part::Log(at + 2) } else { Part::Value(cell as usize) };
    assert_eq!(located(buffers, buffers.peek(5, cell)), part);
    let mut after = buffers.clone();
    run(&mut after, &[(peek(5, cell), number(100)), (read(5, cell), value(current))]);
    assert_eq!(read_many(&mut after, 5, &[cell], 1), (101, 1, vec![current]));
    assert_eq!(&after, buffers);
    let mut written = buffers.clone();
    written.logs[at + 2..at + 4].copy_from_slice(&[8, 1]);
    run(&mut after, &[(write(5, cell, 8), number(100))]);
    assert_eq!(after, written);
    let mut after = buffers.clone();
    let mut held = buffers.clone();
    held.logs[at + 3] = 2 + buffers.logs[at + 3] % 2;
    run(&mut after, &[(hold(5, cell), value(current))]);
    assert_eq!(after, held);
}

/// Asserts that none of them finds it: a new cell is entered at the count, or rolls the session back where its lock has a claimant.
fn not_found(buffers: &Buffers, cell: u32) {
    let at = LOG + 4 * buffers.sessions[5].count as usize;
    let mut entered = buffers.clone();
    entered.readers[cell as usize] = 1 << 5;
    entered.sessions[5].count += 1;
    entered.logs[at..at + 4].copy_from_slice(&[cell, 3, 3, 0]);
    let mut written = entered.clone();
    written.logs[at + 2..at + 4].copy_from_slice(&[8, 1]);
    answered(buffers, cell, (value(3), &entered), (number(100), &written));
    let mut claimed = buffers.clone();
    claimed.claimants[cell as usize] = 9;
    let mut idle = claimed.clone();
    idle.sessions[5] = Session::default();
    answered(&claimed, cell, (number(6), &idle), (number(6), &idle));
}

/// Asserts that a peek of session 5 is 14, and what its reads, a hold and a write of 8 answer and leave.
fn answered(buffers: &Buffers, cell: u32, reads: (Answer, &Buffers), writes: (Answer, &Buffers)) {
    assert!(buffers.peek(5, cell).is_empty());
    assert_eq!(buffers.peek_number(5, cell), number(14));
    let mut after = buffers.clone();
    run(&mut after, &[(read(5, cell), reads.0)]);
    assert_eq!(&after, reads.1);
    let mut after = buffers.clone();
    let mut held = reads.1.clone();
    if reads.0.number == 101 {
        held.logs[LOG + 4 * buffers.sessions[5].count as usize + 3] = 2;
    }
    run(&mut after, &[(hold(5, cell), reads.0)]);
    assert_eq!(after, held);
    let mut after = buffers.clone();
    let (last, count, target) = read_many(&mut after, 5, &[cell], 1);
    assert_eq!(last, reads.0.number);
    assert_eq!((count, target), if last == 101 { (1, vec![reads.0.value]) } else { (0, lent_target(1)) });
    assert_eq!(&after, reads.1);
    let mut after = buffers.clone();
    run(&mut after, &[(write(5, cell, 8), writes.0)]);
    assert_eq!(&after, writes.1);
}

#[test]
fn the_first_of_several_entries_is_found() {
    let words = [[9, 3, 3, 0], [7, 3, 4, 0], [7, 3, 5, 1], [9, 3, 6, 1], [7, 3, 7, 1], [9, 3, 7, 0], [7, 3, 1, 0]];
    for count in 2..=7 {
        found(&logged(count, &words), 9, 0);
        found(&logged(count, &words), 7, 1);
    }
}

#[test]
fn every_place_is_found_at_every_count() {
    for place in 0..32 {
        let mut words = full();
        words[place + 1..].fill([place as u32, 3, 5, 0]);
        for count in place + 1..=32 {
            found(&logged(count, &words), place as u32, place);
        }
    }
}

#[test]
fn words_past_the_entries_are_not_found() {
    for count in 0..32 {
        for cell in count as u32..32 {
            not_found(&logged(count, &full()), cell);
        }
        let mut words = full();
        words[count..].fill([39, 3, 4, 1]);
        not_found(&logged(count, &words), 39);
    }
}

#[test]
fn without_entries_no_cell_is_found() {
    for cell in [0, 1, 39] {
        not_found(&logged(0, &[]), cell);
    }
}

#[test]
fn other_words_of_an_entry_are_not_its_cell() {
    not_found(&logged(1, &[[1, 39, 39, 39]]), 39);
}

#[test]
fn the_log_of_another_session_is_not_searched() {
    for other in [0, 4, 6, 15] {
        for count in [0, 1, 31] {
            let mut buffers = logged(count, &full());
            buffers.sessions[other] = Session { phase: 1, count: 32, next: 0 };
            buffers.logs[128 * other..128 * other + 128].fill(39);
            not_found(&buffers, 39);
        }
        let mut buffers = logged(32, &full());
        buffers.sessions[other] = Session { phase: 1, count: 32, next: 0 };
        full().iter().rev().enumerate().for_each(|(place, words)| {
            buffers.logs[128 * other + 4 * place..128 * other + 4 * place + 4].copy_from_slice(&[words[0], 3, 5, 0])
        });
        (0..32).for_each(|cell| found(&buffers, cell, cell as usize));
    }
}

#[test]
fn a_stray_cell_counts_among_the_entries_alone() {
    for stray in [40, 41, 65_536, u32::MAX] {
        for count in 1..32 {
            let mut words = full();
            words[count..].fill([stray, 3, 4, 1]);
            found(&logged(count, &words), 0, 0);
            not_found(&logged(count, &words), 39);
        }
        for place in 0..32 {
            let mut words = full();
            words[place][0] = stray;
            let buffers = logged(32, &words);
            for cell in 0..40 {
                let mut after = buffers.clone();
                run(&mut after, &[(peek(5, cell), number(9)), (read(5, cell), number(9)), (write(5, cell, 8), number(9))]);
                run(&mut after, &[(hold(5, cell), number(9))]);
                assert_eq!(read_many(&mut after, 5, &[cell], 1), (9, 0, lent_target(1)));
                assert_eq!(after, buffers);
            }
        }
    }
}

#[test]
fn a_full_log_finds_its_last_place_and_has_no_room() {
    let mut buffers = logged(32, &full());
    buffers.logs[LOG + 128] = 39;
    found(&buffers, 31, 31);
    for claimant in [16, 9] {
        buffers.claimants[39] = claimant;
        answered(&buffers, 39, (number(5), &buffers), (number(5), &buffers));
    }
}
