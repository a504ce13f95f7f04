//! Makes a failing case small: takes away records and bytes, processes and rounds, and makes numbers smaller, for as long as it still fails.

use crate::nights::Case;
use crate::records::opening;
use second::machine::MOST_PROCESSES;
use second::sheet::LEAST_ROOM;
use std::time::{Duration, Instant};

/// How long it may take.
const TIME: Duration = Duration::from_secs(40);

struct Shrinking<'a> {
    case: Case,
    fails: &'a mut dyn FnMut(&Case) -> bool,
    until: Instant,
}

pub fn shrink(case: Case, fails: &mut dyn FnMut(&Case) -> bool) -> Case {
    let mut shrinking = Shrinking { case, fails, until: Instant::now() + TIME };
    while shrinking.all_ways() == Some(true) {}
    shrinking.case
}

/// The lengths of the records, as far as the bytes can be taken for some; the rest is one piece.
fn chunks(trace: &[u8]) -> Vec<usize> {
    let (mut at, mut found) = (0, Vec::new());
    while at < trace.len() {
        let left = trace.len() - at;
        let whole = if left < 3 { left } else { 3 + usize::from(trace[at + 1]) * 256 + usize::from(trace[at + 2]) };
        found.push(whole.min(left));
        at += whole.min(left);
    }
    found
}

/// The bytes as records.
fn split(mut trace: &[u8]) -> Vec<&[u8]> {
    let mut records = Vec::new();
    for length in chunks(trace) {
        let (record, rest) = trace.split_at(length);
        records.push(record);
        trace = rest;
    }
    records
}

/// The process whose event this record is.
fn actor(record: &[u8]) -> Option<usize> {
    (matches!(record[0], 0x10..=0x13) && record.len() > 3).then(|| usize::from(record[3]))
}

/// The records without those of so many rounds of each process; none where there is no such round.
fn without_rounds(trace: &[u8], first: usize, many: usize) -> Option<Vec<u8>> {
    let mut done = [0; 256];
    let kept = split(trace).into_iter().filter(|record| {
        let Some(process) = actor(record) else { return true };
        let round = done[process];
        done[process] += usize::from(record[0] == 0x12);
        round < first || round >= first + many
    });
    let kept = kept.collect::<Vec<_>>().concat();
    (kept.len() < trace.len()).then_some(kept)
}

/// The record without a process, whose number those behind it take; none where the process takes part in it.
fn without(record: &[u8], process: u8) -> Option<Vec<u8>> {
    if actor(record).is_none() {
        return Some(record.to_vec());
    }
    let moved = |number: &u8| if *number > process { number - 1 } else { *number };
    (!record[3..].contains(&process)).then(|| [&record[..3], &record[3..].iter().map(moved).collect::<Vec<u8>>()].concat())
}

/// Each way gives nothing where the time is over.
impl Shrinking<'_> {
    /// Tries every way to make the case smaller; whether that did.
    fn all_ways(&mut self) -> Option<bool> {
        let before = self.measure();
        let plain = Case { room: LEAST_ROOM, ..self.case.clone() };
        self.take(plain)?;
        self.fewer(chunks)?;
        self.fewer_processes()?;
        self.fewer_rounds()?;
        self.smaller_values()?;
        if self.case.trace.len() < 400 {
            self.smaller_bytes()?;
            self.fewer(|trace| vec![1; trace.len()])?;
        }
        Some(self.measure() < before)
    }

    /// Takes this case instead, if it fails too; whether it does.
    fn take(&mut self, other: Case) -> Option<bool> {
        if Instant::now() >= self.until {
            return None;
        }
        let fails = (self.fails)(&other);
        if fails {
            self.case = other;
        }
        Some(fails)
    }

    fn take_trace(&mut self, trace: Vec<u8>) -> Option<bool> {
        self.take(Case { trace, room: self.case.room })
    }

    /// How large the case is: by its length, then by its bytes.
    fn measure(&self) -> (usize, usize) {
        (self.case.trace.len(), self.case.trace.iter().map(|byte| usize::from(*byte)).sum())
    }

    /// Takes pieces away: many neighbours at a time, then fewer.
    fn fewer(&mut self, cut: fn(&[u8]) -> Vec<usize>) -> Option<()> {
        let mut many = cut(&self.case.trace).len();
        while many > 0 {
            let mut first = 0;
            loop {
                let pieces = cut(&self.case.trace);
                if first >= pieces.len() {
                    break;
                }
                let from: usize = pieces[..first].iter().sum();
                let upto: usize = from + pieces[first..pieces.len().min(first + many)].iter().sum::<usize>();
                let without = [&self.case.trace[..from], &self.case.trace[upto..]].concat();
                if !self.take_trace(without)? {
                    first += many;
                }
            }
            many /= 2;
        }
        Some(())
    }

    /// Takes each process away, with all that happens to it; those behind it move up.
    fn fewer_processes(&mut self) -> Option<()> {
        let mut process = 0;
        while let Some((values, rest)) = opened(&self.case.trace) {
            if usize::from(process) >= values.len() {
                break;
            }
            let values = [&values[..usize::from(process)], &values[usize::from(process) + 1..]].concat();
            let rest = split(&rest).into_iter().filter_map(|record| without(record, process)).flatten().collect();
            if !self.take_trace([opening(&values), rest].concat())? {
                process += 1;
            }
        }
        Some(())
    }

    /// Takes rounds away, the same ones of every process: many at a time, then fewer, down to one.
    fn fewer_rounds(&mut self) -> Option<()> {
        for many in [4096, 256, 64, 16, 4, 2, 1] {
            let mut first = 0;
            while let Some(trace) = without_rounds(&self.case.trace, first, many) {
                if !self.take_trace(trace)? {
                    first += many;
                }
            }
        }
        Some(())
    }

    fn smaller_values(&mut self) -> Option<()> {
        for small in 0..3 {
            for at in 0..MOST_PROCESSES {
                let Some((mut values, rest)) = opened(&self.case.trace) else { return Some(()) };
                if values.get(at).is_some_and(|value| *value > small) {
                    values[at] = small;
                    self.take_trace([opening(&values), rest].concat())?;
                }
            }
        }
        Some(())
    }

    fn smaller_bytes(&mut self) -> Option<()> {
        for at in 0..self.case.trace.len() {
            for smaller in [0, self.case.trace[at] / 2, self.case.trace[at].saturating_sub(1)] {
                if smaller < self.case.trace[at] {
                    let mut trace = self.case.trace.clone();
                    trace[at] = smaller;
                    if self.take_trace(trace)? {
                        break;
                    }
                }
            }
        }
        Some(())
    }
}

/// The opening values of a trace that begins with a whole opening record, and the bytes behind it.
fn opened(trace: &[u8]) -> Option<(Vec<u32>, Vec<u8>)> {
    let body = 1 + 4 * usize::from(*trace.get(3)?);
    if trace[0] != 1 || usize::from(trace[1]) * 256 + usize::from(trace[2]) != body || trace.len() < 3 + body {
        return None;
    }
    let values = trace[4..3 + body].chunks(4).map(|b| u32::from_be_bytes([b[0], b[1], b[2], b[3]]));
    Some((values.collect(), trace[3 + body..].to_vec()))
}
