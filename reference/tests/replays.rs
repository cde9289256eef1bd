//! The replay: the listing's text, set-ups that are refused, fields that end the calls, and the limits of the input.

use reference::field::{append, Field};
use reference::replay::replay;

fn cell(class: u8, value: u32) -> Field {
    Field { tag: 8, class, value, ..Field::default() }
}

fn call(tag: u8, session: u8, cell: u16, value: u32) -> Field {
    Field { tag, session, cell, value, ..Field::default() }
}

fn bytes(fields: &[Field]) -> Vec<u8> {
    let mut bytes = Vec::new();
    for field in fields {
        append(&mut bytes, field);
    }
    bytes
}

fn text(input: &[u8]) -> String {
    String::from_utf8(replay(input)).unwrap()
}

#[test]
fn the_listing() {
    let mut fields = vec![cell(2, 3), cell(2, 5), call(1, 0, 0, 0), call(1, 1, 0, 0), call(2, 0, 0, 0), call(2, 1, 0, 0)];
    fields.extend([call(3, 0, 0, 4), call(3, 1, 0, 2), call(4, 0, 0, 0), call(4, 1, 0, 0)]);
    fields.extend([call(5, 0, 0, 0), call(5, 1, 0, 0), call(5, 0, 0, 0), call(5, 0, 0, 0), call(5, 0, 0, 0)]);
    let expected =
        "1 100\n2 100\n3 101 3\n4 101 3\n5 100\n6 100\n7 102\n8 102\n9 104 1\n10 6\n11 103\n12 103\n13 105\nc 0 4\nc 1 5\n";
    assert_eq!(text(&bytes(&fields)), expected);
}

#[test]
fn a_hold_prints_its_value_and_is_published() {
    let mut fields = vec![cell(2, 3), cell(2, 5), call(1, 0, 0, 0), call(9, 0, 1, 0), call(3, 0, 1, 6), call(9, 0, 1, 0)];
    fields.extend([call(9, 0, 2, 0), call(9, 16, 0, 0), call(4, 0, 0, 0), call(9, 0, 0, 0)]);
    fields.extend([call(5, 0, 0, 0), call(5, 0, 0, 0), call(5, 0, 0, 0)]);
    let expected = "1 100\n2 101 5\n3 100\n4 101 6\n5 3\n6 1\n7 102\n8 2\n9 103\n10 103\n11 105\nc 0 3\nc 1 6\n";
    assert_eq!(text(&bytes(&fields)), expected);
}

#[test]
fn no_cell_is_7() {
    assert_eq!(text(&[]), "setup 7\n");
    assert_eq!(text(&bytes(&[call(1, 0, 0, 0)])), "setup 7\n");
    assert_eq!(text(&[9]), "setup 7\n");
}

#[test]
fn a_class_or_a_value_that_is_refused_is_8() {
    assert_eq!(text(&bytes(&[cell(0, 1), cell(16, 0), call(1, 0, 0, 0)])), "setup 8\n");
    assert_eq!(text(&bytes(&[cell(0, 2)])), "setup 8\n");
}

#[test]
fn cells_alone_are_printed() {
    assert_eq!(text(&bytes(&[cell(0, 1), cell(15, u32::MAX)])), "c 0 1\nc 1 4294967295\n");
}

#[test]
fn a_refused_field_after_the_cells_is_reported_after_set_up() {
    let mut input = bytes(&[cell(0, 1)]);
    input.push(8);
    assert_eq!(text(&input), "field 8 10\nc 0 1\n");
    let mut input = bytes(&[cell(0, 2)]);
    input.push(8);
    assert_eq!(text(&input), "setup 8\n");
}

#[test]
fn a_late_cell_ends_the_calls() {
    let input = bytes(&[cell(0, 1), call(1, 0, 0, 0), cell(0, 1), call(4, 0, 0, 0)]);
    assert_eq!(text(&input), "1 100\nfield 12 11\nc 0 1\n");
}

#[test]
fn a_late_cell_is_first_judged_as_a_field() {
    let mut input = bytes(&[cell(0, 1), call(1, 0, 0, 0), cell(0, 1)]);
    input[13] = 4;
    assert_eq!(text(&input), "1 100\nfield 12 12\nc 0 1\n");
    input[13] = 5;
    input.pop();
    assert_eq!(text(&input), "1 100\nfield 12 10\nc 0 1\n");
}

#[test]
fn each_refused_field_ends_the_calls() {
    for (tail, number) in [
        (&[5, 1][..], 10),
        (&[7, 1, 0, 0], 11),
        (&[10, 3, 0, 0, 0, 0], 11),
        (&[5, 2, 0, 0], 12),
        (&[5, 1, 0], 10),
        (&[9, 1, 0, 0], 12),
        (&[9, 3, 0, 0, 0], 10),
    ] {
        let mut input = bytes(&[cell(0, 1), call(1, 0, 0, 0)]);
        input.extend_from_slice(tail);
        assert_eq!(text(&input), format!("1 100\nfield 12 {}\nc 0 1\n", number));
    }
}

#[test]
fn refused_calls_take_an_ordinal() {
    let input = bytes(&[cell(0, 1), call(1, 16, 0, 0), call(5, 0, 0, 0), call(1, 0, 0, 0), call(2, 0, 1, 0)]);
    assert_eq!(text(&input), "1 1\n2 2\n3 100\n4 3\nc 0 1\n");
}

#[test]
fn a_1025th_cell_is_7_whatever_its_class() {
    let mut input = bytes(&vec![cell(0, 1); 1024]);
    assert!(text(&input).ends_with("c 1023 1\n"));
    append(&mut input, &cell(255, 9));
    assert_eq!(text(&input), "setup 7\n");
    input.pop();
    assert!(text(&input).starts_with("field 8192 10\nc 0 1\n"));
}

#[test]
fn an_input_of_65536_bytes_is_taken_and_a_longer_one_is_not() {
    let mut input = bytes(&[cell(0, 1)]);
    while input.len() < 65_536 {
        append(&mut input, &call(5, 0, 0, 0));
    }
    assert_eq!(input.len(), 65_536);
    assert!(text(&input).ends_with("\n16382 2\nc 0 1\n"));
    input.push(1);
    assert_eq!(text(&input), "size\n");
}
