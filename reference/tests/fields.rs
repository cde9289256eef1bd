//! The field reader and writer: each tag, each refusal and the order of the refusals.

use reference::field::{read_field, write_field, Field, Reading};

fn reading(bytes: &[u8], place: usize) -> Reading {
    read_field(bytes, place)
}

/// Each tag's field, with all numbers set, and its bytes.
fn samples() -> Vec<(Field, Vec<u8>)> {
    let all = Field { tag: 0, session: 0x11, cell: 0x3322, class: 0x44, value: 0x8877_6655 };
    let mut samples = Vec::new();
    for tag in [1, 4, 5, 6] {
        samples.push((Field { tag, ..all }, vec![tag, 1, 0, 0x11]));
    }
    for tag in [2, 9] {
        samples.push((Field { tag, ..all }, vec![tag, 3, 0, 0x11, 0x22, 0x33]));
    }
    samples.push((Field { tag: 3, ..all }, vec![3, 7, 0, 0x11, 0x22, 0x33, 0x55, 0x66, 0x77, 0x88]));
    samples.push((Field { tag: 8, ..all }, vec![8, 5, 0, 0x44, 0x55, 0x66, 0x77, 0x88]));
    samples
}

/// The field with the numbers that its tag does not carry as 0.
fn carried(field: Field) -> Field {
    let Field { tag, session, class, value, .. } = field;
    match tag {
        2 | 9 => Field { class: 0, value: 0, ..field },
        3 => Field { class: 0, ..field },
        8 => Field { tag, class, value, ..Field::default() },
        _ => Field { tag, session, ..Field::default() },
    }
}

#[test]
fn every_tag_is_written_and_read_back() {
    for (field, bytes) in samples() {
        let mut target = vec![0xee; 12];
        assert_eq!(write_field(&mut target, &field), (100, bytes.len()));
        assert_eq!(target[..bytes.len()], bytes[..]);
        assert!(target[bytes.len()..].iter().all(|byte| *byte == 0xee));
        for place in [0, 3] {
            let mut input = vec![9; place];
            input.extend_from_slice(&bytes);
            input.push(1);
            assert_eq!(reading(&input, place), Reading { number: 100, place, length: bytes.len(), field: carried(field) });
        }
    }
}

#[test]
fn a_target_that_just_fits_is_written_and_a_shorter_one_is_13() {
    for (field, bytes) in samples() {
        let mut target = vec![0xee; bytes.len()];
        assert_eq!(write_field(&mut target, &field), (100, bytes.len()));
        for length in 0..bytes.len() {
            let mut target = vec![0xee; length];
            assert_eq!(write_field(&mut target, &field), (13, 0));
            assert!(target.iter().all(|byte| *byte == 0xee));
        }
    }
}

#[test]
fn an_unknown_tag_is_11_before_13() {
    for tag in (0..=255).filter(|tag| ![1, 2, 3, 4, 5, 6, 8, 9].contains(tag)) {
        let field = Field { tag, ..Field::default() };
        assert_eq!(write_field(&mut [], &field), (11, 0));
        let mut target = [0xee; 12];
        assert_eq!(write_field(&mut target, &field), (11, 0));
        assert_eq!(target, [0xee; 12]);
        assert_eq!(reading(&[tag, 0, 0], 0).number, 11);
        assert_eq!(reading(&[tag, 1, 0, 0], 0).number, 11);
    }
}

#[test]
fn no_bytes_left_is_106_and_one_or_two_are_10() {
    assert_eq!(reading(&[], 0).number, 106);
    assert_eq!(reading(&[1, 1, 0, 0], 4).number, 106);
    assert_eq!(reading(&[1, 1, 0, 0], 9).number, 106);
    for rest in [&[1u8][..], &[7], &[1, 1], &[7, 7], &[1, 7], &[9], &[9, 3]] {
        assert_eq!(reading(rest, 0).number, 10);
    }
}

#[test]
fn a_wrong_length_is_12_before_a_short_body_is_10() {
    for (_, bytes) in samples() {
        for cut in 3..bytes.len() {
            assert_eq!(reading(&bytes[..cut], 0).number, 10);
            for (at, wrong) in [(1, bytes[1] + 1), (1, 0), (2, 1), (2, 255)] {
                let mut wronged = bytes[..cut].to_vec();
                wronged[at] = wrong;
                assert_eq!(reading(&wronged, 0).number, 12);
            }
        }
    }
}

#[test]
fn a_refused_field_keeps_its_place_and_reads_as_zeros() {
    let expected = Reading { number: 12, place: 2, length: 0, field: Field::default() };
    assert_eq!(reading(&[0, 0, 1, 2, 0, 7], 2), expected);
}
