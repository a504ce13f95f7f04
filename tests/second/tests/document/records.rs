//! The numbers of document 01's table that records have, and the order of their tests.

use crate::helpers::{broadcast, bytes, number, open, opening, receive, send, step, whole, TWO};
use second::machine::Event;
use second::sheet::text;
use second::trace::replay;

#[test]
fn number_9_for_fewer_than_3_bytes() {
    assert_eq!(number(""), 9);
    // 9 comes before the tag is looked at.
    for short in ["01", "0100", "55", "5500", "7F", "7F00"] {
        assert_eq!(number(short), 9, "{short}");
        assert_eq!(number(&format!("{TWO} {short}")), 9, "{short}");
    }
    assert_eq!(number(TWO), 9);
    assert_eq!(number(&format!("{TWO} 10 0002 0001")), 9);
}

#[test]
fn number_10_comes_before_12_and_11() {
    for unknown in ["00 0000", "02 0000", "0F FFFF", "14 0001", "7E 0000", "80 0000", "FF 0009"] {
        assert_eq!(number(unknown), 10, "{unknown}");
        assert_eq!(number(&format!("{TWO} {unknown}")), 10, "{unknown}");
    }
}

#[test]
fn number_12_for_a_first_record_that_is_no_opening() {
    // 12 comes before the length, the body and the process number.
    for first in ["10 0002 0000", "11 0002 0000", "12 0001 00", "13 0001 00", "7F 0000", "10 0009", "12 0001", "7F 0001", "13 0001 FF"] {
        assert_eq!(number(first), 12, "{first}");
    }
}

#[test]
fn number_12_for_a_second_opening() {
    for second in [TWO, "01 0000", "01 0001", "01 0009 02", "01 0001 00", "01 0002 00"] {
        assert_eq!(number(&format!("{TWO} {second}")), 12, "{second}");
    }
}

#[test]
fn number_11_comes_before_9_for_the_tags_10_to_7f() {
    for tag in ["10", "11", "12", "13", "7F"] {
        for length in ["0000", "0001", "0002", "0003", "0100", "FFFF"] {
            let right = match tag {
                "10" | "11" => "0002",
                "12" | "13" => "0001",
                _ => "0000",
            };
            let expected = match (length == right, tag) {
                (false, _) => 11,
                (true, "7F") => 0,
                (true, _) => 9,
            };
            assert_eq!(number(&format!("{TWO} {tag} {length}")), expected, "{tag} {length}");
        }
    }
    assert_eq!(number(&format!("{TWO} 7F 0001 00")), 11);
    assert_eq!(number(&format!("{TWO} 10 0003 000000")), 11);
}

#[test]
fn number_9_for_a_short_body_comes_before_2() {
    assert_eq!(number(&format!("{TWO} 10 0002 FF")), 9);
    assert_eq!(number(&format!("{TWO} 11 0002 FF")), 9);
    assert_eq!(number(&format!("{TWO} 12 0001")), 9);
    assert_eq!(number(&format!("{TWO} 10 0002 FFFF")), 2);
}

#[test]
fn the_order_for_an_opening() {
    // "length 0, 11"
    assert_eq!(number("01 0000"), 11);
    assert_eq!(number("01 0000 00"), 11);
    // "first body byte missing, 9"
    assert_eq!(number("01 0005"), 9);
    assert_eq!(number("01 0002"), 9);
    // "length not 1 plus 4 times N, 11"
    assert_eq!(number("01 0005 02"), 11);
    assert_eq!(number("01 0002 00"), 11);
    assert_eq!(number("01 0005 00 00000000"), 11);
    assert_eq!(number("01 0001 11"), 11);
    // "rest missing, 9"
    assert_eq!(number("01 0005 01"), 9);
    assert_eq!(number("01 0005 01 000000"), 9);
    assert_eq!(replay(&opening(17, 69, 16)).number, 9);
    // "then 1"
    assert_eq!(number("01 0001 00"), 1);
    assert_eq!(replay(&opening(17, 69, 17)).number, 1);
    assert_eq!(replay(&opening(16, 65, 16)).number, 9);
}

#[test]
fn an_opening_of_255() {
    let mut trace = opening(255, 1021, 255);
    assert_eq!(replay(&trace).number, 1);
    trace.pop();
    assert_eq!(replay(&trace).number, 9);
    assert_eq!(replay(&opening(255, 1020, 255)).number, 11);
    // 1021 is 253 when only its low byte is read, and 1 + 4 * 255 must not wrap to 253.
    assert_eq!(replay(&opening(255, 253, 255)).number, 11);
    // The lengths are two bytes, of which the first is the high one.
    assert_eq!(number("01 0500 01 00000000"), 11);
}

#[test]
fn number_13_for_bytes_after_the_end() {
    for after in ["00", "7F", "7F0000", "01 0005 01 00000000", "10 0002 0000"] {
        let night = replay(&bytes(&format!("{TWO} 7F 0000 {after}")));
        assert_eq!(night.number, 13, "{after}");
        assert_eq!(night.run, Some(open(&[7, 4])), "{after}");
    }
    assert_eq!(number(&format!("{TWO} 7F 0001 00 00")), 11);
}

#[test]
fn the_event_numbers_come_through_a_trace() {
    assert_eq!(replay(&whole(2, &[send(2, 0)])).number, 2);
    assert_eq!(replay(&whole(2, &[send(0, 1), send(0, 1)])).number, 3);
    assert_eq!(replay(&whole(2, &[[broadcast(0), step(0)].repeat(8), vec![send(0, 1)]].concat())).number, 4);
    assert_eq!(replay(&whole(2, &[receive(0, 1)])).number, 5);
    assert_eq!(replay(&whole(2, &[step(0)])).number, 6);
    assert_eq!(replay(&whole(1, &[send(0, 0), step(0)].repeat(65_535))).number, 7);
    assert_eq!(replay(&whole(2, &[])).number, 0);
}

#[test]
fn number_8_comes_through_a_trace() {
    let mut whole_round: Vec<Event> = (0..3).map(broadcast).collect();
    whole_round.extend((0..3).flat_map(|receiver| (0..3).map(move |sender| receive(receiver, sender))));
    whole_round.extend((0..3).map(step));
    let night = replay(&whole(3, &whole_round.repeat(47_620)));
    assert_eq!(night.number, 8);
    // The broadcast that starts the last round is 3 events and only one is left.
    assert_eq!(night.run.map(|run| run.accepted), Some(999_999));
    assert_eq!(night.steps.len(), 3 * 47_619);
}

#[test]
fn what_was_accepted_before_a_refusal_stands() {
    let night = replay(&bytes(&format!("{TWO} 13 0001 00  12 0001 00  12 0001 00  13 0001 01")));
    assert_eq!(text(&night), "h 0 1 0000\nw 0 2 2 1 0 0 0001\nw 1 1 3 0 0 0 0002\nv 0 7 - -\nv 1 4 - -\ne 3 6\n");
}
