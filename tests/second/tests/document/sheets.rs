//! The sheet and the report.

use crate::helpers::{broadcast, bytes, opening, receive, send, step, whole, SHEET_TRACE, TWO};
use second::machine::Event;
use second::sheet::{report, text};
use second::trace::replay;

#[test]
fn a_sheet_without_an_opening() {
    assert_eq!(text(&replay(&[])), "e 0 9\n");
    assert_eq!(text(&replay(&bytes("01 0001 00"))), "e 0 1\n");
    assert_eq!(text(&replay(&bytes("7F 0000"))), "e 0 12\n");
}

#[test]
fn a_sheet_of_sixteen_in_hex_and_decimal() {
    let mut events: Vec<Event> = (0..16).map(|process| send(process, 15)).collect();
    events.extend((0..15).map(|to| send(15, to)));
    events.extend((0..16).filter(|process| process % 2 == 1).map(|sender| receive(15, sender)));
    events.push(step(15));
    let sheet = text(&replay(&whole(16, &events)));
    let lines: Vec<&str> = sheet.lines().collect();
    assert_eq!(lines[0], "h 15 1 aaaa");
    assert_eq!(lines[1], "w 0 1 40 0 0 0 0001");
    // Process 15 sends its last at event 31; messages are in transit to it up to the step, as it hears half of them.
    assert_eq!(lines[16], "w 15 2 31 9 0 0 aaaa");
    assert_eq!(lines[32], "v 15 5 5 -");
    assert_eq!(lines[33], "e 40 0");
    assert_eq!(lines.len(), 34);
}

#[test]
fn number_14_for_too_little_room() {
    for size in [0, 1, 24, 48, 383] {
        let mut room = vec![0xAB; size];
        // 14 is tested before the trace is looked at.
        assert_eq!(report(&bytes(SHEET_TRACE), &mut room), 14);
        assert_eq!(report(&[], &mut room), 14);
        assert_eq!(room, vec![0xAB; size]);
    }
}

#[test]
fn the_report_of_the_sheet_trace() {
    for size in [384, 385, 1000] {
        let mut room = vec![0xAB; size];
        assert_eq!(report(&bytes(SHEET_TRACE), &mut room), 0);
        let rows = bytes(
            "00000002 00000002 00000002 00000001 00000001 00000003
             00000001 00000006 00000000 00000000 00000000 00000002",
        );
        assert_eq!(room[..48], rows);
        assert_eq!(room[48..], vec![0xAB; size - 48]);
    }
}

#[test]
fn no_report_without_an_accepted_opening() {
    let mut room = [0xAB; 384];
    assert_eq!(report(&[], &mut room), 9);
    assert_eq!(report(&opening(17, 69, 17), &mut room), 1);
    assert_eq!(report(&bytes("7F 0000"), &mut room), 12);
    assert_eq!(room, [0xAB; 384]);
}

#[test]
fn a_report_stays_after_a_later_refusal() {
    let mut room = [0xAB; 384];
    assert_eq!(report(&bytes(&format!("{TWO} 10 0002 0000 12 0001 00")), &mut room), 6);
    assert_eq!(room[..8], bytes("00000001 00000001"));
    let sixteen = whole(16, &[broadcast(0)]);
    assert_eq!(report(&sixteen, &mut room), 0);
    // Process 15, the last row: round 1, sixteen events at S, reach bit 15.
    assert_eq!(room[360..], bytes("00000001 00000010 00000000 00000000 00000000 00008000"));
}
