//! A case for each slip that document 01 names.

use crate::helpers::{accept, after_example_4, broadcast, open, receive, round, send, set, state, states, step};
use second::machine::{Finished, Stage};
use second::run::Counts;

#[test]
fn slip_a_fast_senders_new_value() {
    let mut run = open(&[9, 4, 2]);
    // Process 1 sends its 4 to process 0, then takes over the 2 of process 2 and goes on.
    accept(&mut run, &[broadcast(1), send(2, 1), receive(1, 2), step(1)]);
    assert_eq!(run.sites[1].state, state(2, Some(2), None));
    accept(&mut run, &[receive(0, 1), broadcast(0), step(0)]);
    assert_eq!(run.sites[0].state, state(4, Some(4), None));
}

#[test]
fn slip_all_votes_equal_in_an_empty_heard_set() {
    let mut run = open(&[7, 4]);
    round(&mut run, &[&[], &[]]);
    assert_eq!(states(&run), [state(7, None, None), state(4, None, None)]);
    let mut decided = after_example_4();
    round(&mut decided, &[&[], &[]]);
    round(&mut decided, &[&[], &[]]);
    assert_eq!(states(&decided), [state(7, None, Some(7)), state(4, None, Some(4))]);
}

#[test]
fn slip_the_own_message_without_a_receive() {
    let mut run = open(&[4, 7]);
    accept(&mut run, &[broadcast(0), broadcast(1), receive(0, 1)]);
    assert_eq!(run.stage(0), Stage::C);
    let finished = run.apply(step(0)).expect("process 0 has sent to all");
    assert_eq!(finished, Some(Finished { process: 0, round: 1, heard: set(&[1]) }));
    assert_eq!(run.sites[0].state, state(7, Some(7), None));
}

#[test]
fn slip_the_reach_of_the_senders_present_state() {
    let mut run = open(&[9, 4, 2]);
    accept(&mut run, &[broadcast(1), send(2, 1), receive(1, 2), step(1)]);
    assert_eq!(run.sites[1].reach, set(&[1, 2]));
    accept(&mut run, &[receive(0, 1), broadcast(0), step(0)]);
    assert_eq!(run.sites[0].reach, set(&[0, 1]));
}

#[test]
fn slip_a_process_that_has_heard_everyone() {
    let mut run = open(&[7]);
    accept(&mut run, &[broadcast(0), receive(0, 0)]);
    assert_eq!(run.stage(0), Stage::I);
    accept(&mut run, &[step(0)]);
    assert_eq!(run.sites[0].counts, Counts { s: 1, c: 1, p: 0, i: 1 });
}
