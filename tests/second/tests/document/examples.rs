//! Document 01's twelve examples.

use crate::helpers::{
    accept, after_example_4, broadcast, bytes, decisions, go_on, open, receive, refuse, round, send, set, state, states, step, values,
    SHEET, SHEET_TRACE,
};
use second::machine::{Finished, Stage};
use second::run::{Counts, Run};
use second::sheet::text;
use second::trace::replay;
use second::voting::next;

#[test]
fn example_1_the_sheet() {
    assert_eq!(text(&replay(&bytes(SHEET_TRACE))), SHEET);
}

#[test]
fn example_1_the_stages_before_each_event() {
    let events = [send(0, 0), send(0, 1), receive(0, 0), send(1, 0), receive(0, 1), step(0)];
    let stages = [Stage::S, Stage::S, Stage::C, Stage::P, Stage::C, Stage::I];
    let mut run = open(&[7, 4]);
    for (event, stage) in events.into_iter().zip(stages) {
        assert_eq!(run.stage(0), stage);
        assert_eq!(run.stage(1), Stage::S);
        accept(&mut run, &[event]);
    }
    assert_eq!(run.sites[0].counts, Counts { s: 2, c: 2, p: 1, i: 1 });
    assert_eq!(run.sites[1].counts, Counts { s: 6, c: 0, p: 0, i: 0 });
}

#[test]
fn example_1_what_the_step_reports() {
    let steps = replay(&bytes(SHEET_TRACE)).steps;
    assert_eq!(steps, [Finished { process: 0, round: 1, heard: set(&[0, 1]) }]);
}

fn after_example_2() -> Run {
    let mut run = open(&[1, 1, 0]);
    round(&mut run, &[&[0, 1], &[1, 2], &[0, 2]]);
    run
}

#[test]
fn example_2_the_round_of_003() {
    let expected = [state(1, Some(1), None), state(0, None, None), state(0, None, None)];
    assert_eq!(states(&after_example_2()), expected);
}

#[test]
fn example_3_all_hear_all() {
    let mut run = after_example_2();
    let all: [&[u8]; 3] = [&[0, 1, 2]; 3];
    round(&mut run, &all);
    assert_eq!(values(&run), [1; 3]);
    assert_eq!(decisions(&run), [None; 3]);
    round(&mut run, &all);
    round(&mut run, &all);
    assert_eq!(decisions(&run), [Some(1); 3]);
}

#[test]
fn example_4_two_decisions() {
    assert_eq!(decisions(&after_example_4()), [Some(7), Some(4)]);
}

#[test]
fn example_5_a_decision_changes() {
    let mut run = after_example_4();
    let both: [&[u8]; 2] = [&[0, 1]; 2];
    round(&mut run, &both);
    round(&mut run, &both);
    assert_eq!(values(&run), [4, 4]);
    assert_eq!(decisions(&run), [Some(7), Some(4)]);
    round(&mut run, &both);
    assert_eq!(decisions(&run), [Some(7), Some(4)]);
    round(&mut run, &both);
    assert_eq!(decisions(&run), [Some(4), Some(4)]);
}

#[test]
fn example_6_two_votes() {
    let mut run = open(&[7, 4]);
    round(&mut run, &[&[0], &[1]]);
    round(&mut run, &[&[0, 1], &[]]);
    assert_eq!(run.sites[0].state, state(4, None, None));
}

#[test]
fn example_7_empty_heard_set() {
    let mut run = open(&[7, 4]);
    accept(&mut run, &[broadcast(0), step(0)]);
    assert_eq!(run.sites[0].state, state(7, None, None));
    // A vote is kept as well: a state with a vote does not change in an odd round without messages.
    assert_eq!(next(1, state(7, Some(3), Some(2)), &[]), state(7, Some(3), Some(2)));
}

#[test]
fn example_8_the_lead() {
    let mut run = open(&[7, 4]);
    go_on(&mut run, 0, 7);
    assert_eq!(run.sites[0].round, 8);
    accept(&mut run, &[send(0, 1)]);
    accept(&mut run, &[send(0, 0), step(0)]);
    assert_eq!(run.sites[0].round, 9);
    refuse(&mut run, send(0, 1), 4);
    refuse(&mut run, broadcast(0), 4);
    accept(&mut run, &[send(0, 0)]);
}

#[test]
fn example_9_the_same_message_twice() {
    let mut run = open(&[7, 4]);
    accept(&mut run, &[send(1, 0), receive(0, 1)]);
    refuse(&mut run, receive(0, 1), 5);
}

#[test]
fn example_9_a_message_of_the_round_before() {
    let mut run = open(&[7, 4]);
    accept(&mut run, &[send(1, 0), broadcast(0), step(0)]);
    refuse(&mut run, receive(0, 1), 5);
    // 01: "Messages to p for older rounds leave transit."
    assert!(run.transit.iter().all(|message| message.receiver != 0));
}

#[test]
fn example_10_how_many_processes() {
    assert_eq!(Run::open(&[]), Err(1));
    assert_eq!(Run::open(&[5; 17]), Err(1));
    let mut run = open(&[5; 16]);
    for event in [send(16, 0), send(0, 16), receive(16, 0), receive(0, 16), step(16), broadcast(16)] {
        refuse(&mut run, event, 2);
    }
    refuse(&mut run, send(255, 255), 2);
    accept(&mut run, &[send(15, 15)]);
}

#[test]
fn example_11_a_late_message() {
    let mut run = open(&[7, 4]);
    go_on(&mut run, 1, 1);
    accept(&mut run, &[broadcast(1)]);
    accept(&mut run, &[receive(1, 1)]);
    let transit = run.transit.clone();
    assert_eq!(run.stage(1), Stage::P);
    accept(&mut run, &[send(0, 1)]);
    assert_eq!(run.transit, transit);
    assert_eq!(run.stage(1), Stage::P);
    assert_eq!(run.sites[0].sent, set(&[1]));
    refuse(&mut run, receive(1, 0), 5);
    refuse(&mut run, send(0, 1), 3);
}

#[test]
fn example_12_broadcast_after_a_single_send() {
    let mut run = open(&[7, 4]);
    accept(&mut run, &[send(0, 1)]);
    refuse(&mut run, broadcast(0), 3);
    assert_eq!(run.sites[0].sent, set(&[1]));
}
