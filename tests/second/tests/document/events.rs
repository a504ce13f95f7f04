//! The numbers of document 01's table that events have, and the order of their tests.

use crate::helpers::{accept, broadcast, go_on, number, open, receive, refuse, round, send, set, state, states, step};
use second::run::Counts;

#[test]
fn number_0_and_what_an_opening_holds() {
    let run = open(&[0, u32::MAX]);
    assert_eq!((run.accepted, run.transit.len(), run.sites.len()), (0, 0, 2));
    assert_eq!(states(&run), [state(0, None, None), state(u32::MAX, None, None)]);
    for (process, site) in (0..).zip(&run.sites) {
        assert_eq!((site.round, site.counts), (1, Counts::default()));
        assert!(site.sent.is_empty() && site.heard.is_empty());
        assert_eq!(site.reach, set(&[process]));
    }
    assert_eq!(number("01 0005 01 00000000 7F 0000"), 0);
}

#[test]
fn number_2_comes_before_8() {
    let mut run = open(&[7, 4]);
    run.accepted = 1_000_000;
    for event in [send(2, 0), send(0, 2), receive(2, 0), receive(0, 2), step(2), broadcast(2)] {
        refuse(&mut run, event, 2);
    }
}

#[test]
fn number_8_comes_before_3_4_5_6_and_7() {
    let mut run = open(&[7, 4]);
    go_on(&mut run, 0, 8);
    accept(&mut run, &[send(0, 0)]);
    for (event, without) in [(send(0, 0), 3), (send(0, 1), 4), (broadcast(0), 3), (receive(1, 1), 5), (step(1), 6)] {
        refuse(&mut run, event, without);
        let accepted = std::mem::replace(&mut run.accepted, 1_000_000);
        refuse(&mut run, event, 8);
        run.accepted = accepted;
    }
    let mut last = open(&[7]);
    go_on(&mut last, 0, 65_534);
    accept(&mut last, &[send(0, 0)]);
    refuse(&mut last, step(0), 7);
    last.accepted = 1_000_000;
    refuse(&mut last, step(0), 8);
}

#[test]
fn number_3_comes_before_4() {
    // Within one round the lead only falls, so the run is put together by hand here.
    let mut run = open(&[7, 4]);
    run.sites[0].round = 9;
    run.sites[0].sent = set(&[1]);
    refuse(&mut run, send(0, 1), 3);
}

#[test]
fn number_3_or_4_of_a_broadcast_is_that_of_its_first_target() {
    let mut run = open(&[7, 4, 2]);
    go_on(&mut run, 1, 8);
    accept(&mut run, &[send(1, 1)]);
    // Target 0 has 4, target 1 has 3, target 2 has 4.
    refuse(&mut run, broadcast(1), 4);
    accept(&mut run, &[broadcast(0), step(0)]);
    // Target 0 is free now, so the first is target 1.
    refuse(&mut run, broadcast(1), 3);
}

#[test]
fn number_4_only_where_the_lead_is_8() {
    let mut run = open(&[7, 4]);
    go_on(&mut run, 0, 8);
    refuse(&mut run, send(0, 1), 4);
    accept(&mut run, &[send(1, 0), send(1, 1), step(1), send(0, 1)]);
}

#[test]
fn number_5_without_a_message() {
    let mut run = open(&[7, 4]);
    refuse(&mut run, receive(0, 1), 5);
    refuse(&mut run, receive(0, 0), 5);
    // An early message is in transit and waits for its round.
    go_on(&mut run, 1, 1);
    accept(&mut run, &[send(1, 0), receive(0, 1)]);
    refuse(&mut run, receive(0, 1), 5);
    accept(&mut run, &[broadcast(0), step(0), receive(0, 1)]);
}

#[test]
fn number_6_comes_before_7_and_7_at_the_last_round() {
    let mut run = open(&[7]);
    refuse(&mut run, step(0), 6);
    go_on(&mut run, 0, 65_534);
    assert_eq!(run.sites[0].round, 65_535);
    refuse(&mut run, step(0), 6);
    accept(&mut run, &[send(0, 0), receive(0, 0)]);
    refuse(&mut run, step(0), 7);
}

#[test]
fn number_8_after_a_million_events() {
    let mut run = open(&[3, 1, 2]);
    let all: [&[u8]; 3] = [&[0, 1, 2]; 3];
    // A round is 21 events.
    for _ in 0..47_619 {
        round(&mut run, &all);
    }
    assert_eq!(run.accepted, 999_999);
    refuse(&mut run, broadcast(0), 8);
    accept(&mut run, &[send(0, 0)]);
    assert_eq!(run.accepted, 1_000_000);
    for event in [send(0, 1), receive(0, 0), step(0), broadcast(0)] {
        refuse(&mut run, event, 8);
    }
    for site in &run.sites {
        let Counts { s, c, p, i } = site.counts;
        assert_eq!(s + c + p + i, 1_000_000);
    }
}

#[test]
fn number_8_for_a_broadcast_with_all_its_events_at_once() {
    let mut run = open(&[5; 16]);
    run.accepted = 999_985;
    refuse(&mut run, broadcast(0), 8);
    run.accepted = 999_984;
    accept(&mut run, &[broadcast(0)]);
    assert_eq!(run.accepted, 1_000_000);
}

#[test]
fn a_broadcast_is_its_sends() {
    let mut at_once = open(&[7, 4, 2]);
    let mut singly = at_once.clone();
    accept(&mut at_once, &[broadcast(2), broadcast(0)]);
    accept(&mut singly, &[send(2, 0), send(2, 1), send(2, 2), send(0, 0), send(0, 1), send(0, 2)]);
    assert_eq!(at_once, singly);
}
