//! Events, runs and records in short.

use second::machine::Event;
use second::run::Run;
use second::trace::replay;
use second::voting::State;
use std::collections::BTreeSet;

pub fn send(from: u8, to: u8) -> Event {
    Event::Send { from, to }
}

pub fn receive(receiver: u8, sender: u8) -> Event {
    Event::Receive { receiver, sender }
}

pub fn step(process: u8) -> Event {
    Event::Step { process }
}

pub fn broadcast(process: u8) -> Event {
    Event::Broadcast { process }
}

pub fn open(values: &[u32]) -> Run {
    Run::open(values).expect("1 to 16 values")
}

pub fn accept(run: &mut Run, events: &[Event]) {
    for &event in events {
        assert_eq!(run.number(event), 0, "{event:?}");
        run.apply(event).expect("number said 0");
    }
}

/// The event is refused with this number and the run stays as it was.
pub fn refuse(run: &mut Run, event: Event, number: u8) {
    let before = run.clone();
    assert_eq!(run.number(event), number, "{event:?}");
    assert_eq!(run.apply(event), Err(number), "{event:?}");
    assert_eq!(*run, before);
}

/// One round of all processes: all send to all, each hears its set, each steps.
pub fn round(run: &mut Run, heard: &[&[u8]]) {
    for process in 0..heard.len() as u8 {
        accept(run, &[broadcast(process)]);
    }
    for (receiver, senders) in (0..).zip(heard) {
        for &sender in *senders {
            accept(run, &[receive(receiver, sender)]);
        }
    }
    for process in 0..heard.len() as u8 {
        accept(run, &[step(process)]);
    }
}

/// The process goes on alone by this many rounds, hearing nobody.
pub fn go_on(run: &mut Run, process: u8, rounds: u32) {
    for _ in 0..rounds {
        accept(run, &[broadcast(process), step(process)]);
    }
}

pub fn set(members: &[u8]) -> BTreeSet<u8> {
    members.iter().copied().collect()
}

pub fn state(value: u32, vote: Option<u32>, decision: Option<u32>) -> State {
    State { value, vote, decision }
}

pub fn states(run: &Run) -> Vec<State> {
    run.sites.iter().map(|site| site.state).collect()
}

pub fn decisions(run: &Run) -> Vec<Option<u32>> {
    run.sites.iter().map(|site| site.state.decision).collect()
}

pub fn values(run: &Run) -> Vec<u32> {
    run.sites.iter().map(|site| site.state.value).collect()
}

/// Bytes from hex digits, blanks left out.
pub fn bytes(hex: &str) -> Vec<u8> {
    let digits: Vec<u8> = hex.chars().filter_map(|digit| digit.to_digit(16)).map(|digit| digit as u8).collect();
    digits.chunks(2).map(|pair| pair[0] * 16 + pair[1]).collect()
}

pub fn number(hex: &str) -> u8 {
    replay(&bytes(hex)).number
}

/// An opening record of this N with this many values, all of them 5.
pub fn opening(n: u8, length: u16, values: usize) -> Vec<u8> {
    let mut record = vec![0x01];
    record.extend(length.to_be_bytes());
    record.push(n);
    record.extend([0, 0, 0, 5].repeat(values));
    record
}

pub fn record(event: Event) -> Vec<u8> {
    match event {
        Event::Send { from, to } => vec![0x10, 0, 2, from, to],
        Event::Receive { receiver, sender } => vec![0x11, 0, 2, receiver, sender],
        Event::Step { process } => vec![0x12, 0, 1, process],
        Event::Broadcast { process } => vec![0x13, 0, 1, process],
    }
}

/// A whole trace: N values of 5, the events, the end record.
pub fn whole(n: u8, events: &[Event]) -> Vec<u8> {
    let mut trace = opening(n, 1 + 4 * u16::from(n), usize::from(n));
    trace.extend(events.iter().flat_map(|&event| record(event)));
    trace.extend([0x7F, 0, 0]);
    trace
}

/// An opening of two processes with values 7 and 4.
pub const TWO: &str = "01 0009 02 00000007 00000004";

/// The trace of 01's section on the sheet.
pub const SHEET_TRACE: &str = "01 00 09 02 00000007 00000004  10 00 02 00 00  10 00 02 00 01  11 00 02 00 00
     10 00 02 01 00  11 00 02 00 01  12 00 01 00  7F 00 00";

pub const SHEET: &str = "\
h 0 1 0003
w 0 2 2 2 1 1 0003
w 1 1 6 0 0 0 0002
v 0 4 - -
v 1 4 - -
e 6 0
";

/// The run of 01's example 4: values 7 and 4, each hears only itself in rounds 1 and 2.
pub fn after_example_4() -> Run {
    let mut run = open(&[7, 4]);
    round(&mut run, &[&[0], &[1]]);
    round(&mut run, &[&[0], &[1]]);
    run
}
