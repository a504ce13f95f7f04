//! What people get: the sheet as text, and the report that the monitoring service has written in its room.

use crate::machine::Finished;
use crate::run::{Run, Site};
use crate::trace::{self, Night};
use crate::voting::State;
use std::collections::BTreeSet;

/// 01: "report room under 384 bytes", which is a row for each of 16 processes.
pub const LEAST_ROOM: usize = 384;
/// 01: "24 times N bytes": six numbers of four bytes per process.
pub const ROW: usize = 24;
/// The number given back for too little room, as 01 lists it.
pub const TOO_LITTLE_ROOM: u8 = 14;

/// The whole sheet. 01: "Without an accepted opening only `e` is printed."
pub fn text(night: &Night) -> String {
    let mut lines: Vec<String> = night.steps.iter().map(h_line).collect();
    if let Some(run) = &night.run {
        lines.extend(run.sites.iter().enumerate().map(w_line));
        lines.extend(run.sites.iter().enumerate().map(|(process, site)| v_line(process, site.state)));
    }
    lines.push(e_line(night));
    lines.into_iter().map(|line| line + "\n").collect()
}

/// The monitoring service's call: replays the trace, writes the report in the room and gives the number back.
///
/// 01: "14 is tested first and nothing is written then", and "the rest is unchanged".
pub fn report(trace: &[u8], room: &mut [u8]) -> u8 {
    if room.len() < LEAST_ROOM {
        return TOO_LITTLE_ROOM;
    }
    let night = trace::replay(trace);
    if let Some(run) = &night.run {
        for (row, place) in rows(run).iter().zip(room.chunks_exact_mut(ROW)) {
            place.copy_from_slice(row);
        }
    }
    night.number
}

/// A row of the report for each process.
fn rows(run: &Run) -> Vec<Vec<u8>> {
    run.sites.iter().map(row).collect()
}

/// 01: "round, counts S, C, P, I and reach, four bytes each, big-endian".
fn row(site: &Site) -> Vec<u8> {
    let counts = site.counts;
    let numbers = [site.round, counts.s, counts.c, counts.p, counts.i, mask(&site.reach)];
    numbers.iter().flat_map(|number| number.to_be_bytes()).collect()
}

/// 01: "process, round finished, heard set in four hex digits".
fn h_line(finished: &Finished) -> String {
    format!("h {} {} {:04x}", finished.process, finished.round, mask(&finished.heard))
}

/// 01: "process, round, S, C, P, I, reach in four hex digits".
fn w_line((process, site): (usize, &Site)) -> String {
    let counts = site.counts;
    let reach = mask(&site.reach);
    format!("w {process} {} {} {} {} {} {reach:04x}", site.round, counts.s, counts.c, counts.p, counts.i)
}

/// 01: "process, value, vote, decision, `-` for absent".
pub fn v_line(process: usize, state: State) -> String {
    format!("v {process} {} {} {}", state.value, or_dash(state.vote), or_dash(state.decision))
}

/// 01: "accepted events, number". Without a run no event was accepted.
fn e_line(night: &Night) -> String {
    let accepted = night.run.as_ref().map_or(0, |run| run.accepted);
    format!("e {accepted} {}", night.number)
}

fn or_dash(number: Option<u32>) -> String {
    number.map_or("-".to_string(), |number| number.to_string())
}

/// 01: "process k is bit k".
fn mask(set: &BTreeSet<u8>) -> u32 {
    set.iter().map(|process| 1u32 << process).sum()
}
