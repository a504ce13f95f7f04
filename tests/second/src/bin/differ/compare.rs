//! One trace through both replays: the number, every byte of the report and every byte of the sheet must be the same.

use crate::nights::Case;
use crate::proved::Proved;
use second::sheet;
use second::trace::{self, Night};

/// What both replays come to, where they agree: the number of the C call, and the night.
pub struct Agreed {
    pub call: u8,
    pub night: Night,
}

/// Bytes in a report before the call, no two neighbours alike.
pub fn before(room: usize) -> Vec<u8> {
    (0..room).map(|at| (at * 37 + 11) as u8).collect()
}

/// Both replays on this case. An error says in what they differ.
pub fn both(proved: &mut Proved, case: &Case) -> Result<Agreed, String> {
    let held = before(case.room);
    let mut report = held.clone();
    let wanted = sheet::report(&case.trace, &mut report);
    let (given, after) = proved.call(&case.trace, &held)?;
    if given != u32::from(wanted) {
        return Err(format!("the C call gives {given}, the second replay {wanted}"));
    }
    if let Some(at) = (0..case.room).find(|at| after[*at] != report[*at]) {
        let (row, ours, other) = (at / sheet::ROW, after[at], report[at]);
        return Err(format!("the report differs at byte {at} (row {row}): {ours:#04x}, the second replay has {other:#04x}"));
    }
    let night = trace::replay(&case.trace);
    let (text, other) = (proved.sheet(&case.trace)?, sheet::text(&night));
    if text != other {
        return Err(first_difference(&text, &other));
    }
    Ok(Agreed { call: wanted, night })
}

/// The first line in which two sheets differ.
fn first_difference(sheet: &str, other: &str) -> String {
    let (mut lines, mut others) = (sheet.split('\n'), other.split('\n'));
    loop {
        match (lines.next(), others.next()) {
            (Some(line), Some(other)) if line == other => {}
            (line, other) => {
                let (line, other) = (line.unwrap_or("no more lines"), other.unwrap_or("no more lines"));
                return format!("the sheet has '{line}', the second replay '{other}'");
            }
        }
    }
}
