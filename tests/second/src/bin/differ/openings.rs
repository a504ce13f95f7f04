//! Demand 3 as a test of the proved side alone: the same events under two openings give the same number and report, and the same `h`, `w` and `e` lines;
//! and where the openings agree on a process's final reach, the same `v` line, at the end and at earlier moments.

use crate::compare::before;
use crate::nights;
use crate::proved::Proved;
use crate::random::Random;
use crate::records::Night;
use crate::share::share;
use second::sheet::LEAST_ROOM;

const SEED: u64 = 3;
const NIGHTS: u64 = 700;

/// How many `v` lines were held to each other, how many of them under openings that differ elsewhere, and how many others were seen to differ.
#[derive(Default)]
struct Seen {
    held: u64,
    under_others: u64,
    differ: u64,
}

/// The lines of a sheet that begin with this letter.
fn lines(sheet: &str, letter: char) -> Vec<&str> {
    sheet.lines().filter(|line| line.starts_with(letter)).collect()
}

/// The reach of each process, from its `w` line.
fn reaches(sheet: &str) -> Vec<u32> {
    let mask = |line: &str| line.rsplit(' ').next().and_then(|hex| u32::from_str_radix(hex, 16).ok());
    lines(sheet, 'w').into_iter().map(|line| mask(line).expect("a w line ends in a set")).collect()
}

/// Other opening values: on some processes those that were, on the rest drawn anew.
fn other_values(random: &mut Random, values: &[u32], kept: u32) -> Vec<u32> {
    let drawn = nights::values(random, values.len());
    (0..values.len()).map(|process| if kept >> process & 1 == 1 { values[process] } else { drawn[process] }).collect()
}

/// The processes on which two openings have the same value.
fn agreeing(one: &[u32], other: &[u32]) -> u32 {
    (0..one.len()).filter(|at| one[*at] == other[*at]).map(|at| 1 << at).sum()
}

fn without_votes(sheet: &str) -> Vec<&str> {
    sheet.lines().filter(|line| !line.starts_with('v')).collect()
}

/// Both nights through the C call and the program; the sheets, if all that must not depend on values is the same.
fn blind(proved: &mut Proved, one: &Night, other: &Night) -> Result<(String, String), String> {
    let held = before(LEAST_ROOM);
    if proved.call(&one.bytes(), &held)? != proved.call(&other.bytes(), &held)? {
        return Err("the number or the report is another under other opening values".to_string());
    }
    let (sheet, other) = (proved.sheet(&one.bytes())?, proved.sheet(&other.bytes())?);
    if without_votes(&sheet) != without_votes(&other) {
        return Err("an h, w or e line is another under other opening values".to_string());
    }
    Ok((sheet, other))
}

fn compared(proved: &mut Proved, case: u64) -> Result<Seen, String> {
    let random = &mut Random::new(SEED, case);
    let (one, _) = nights::night(random);
    // the other opening keeps the values on the reach of one process, so that something is promised
    let reaches = reaches(&proved.sheet(&one.bytes())?);
    let kept = random.pick(&reaches);
    let other = one.opened_with(other_values(random, &one.values, kept));
    let agreeing = agreeing(&one.values, &other.values);
    let mut seen = Seen::default();
    // the whole nights, whatever stands behind their events, and two moments of them
    let earlier = [random.below(one.events.len() + 1), random.below(one.events.len() + 1)];
    let parts = earlier.iter().map(|moment| (one.until(*moment), other.until(*moment)));
    for (one, other) in [(one.clone(), other.clone())].into_iter().chain(parts) {
        let (sheet, sheet_of_other) = blind(proved, &one, &other)?;
        for (process, (line, other_line)) in lines(&sheet, 'v').into_iter().zip(lines(&sheet_of_other, 'v')).enumerate() {
            if reaches[process] & !agreeing != 0 {
                seen.differ += u64::from(line != other_line);
                continue;
            }
            if line != other_line {
                return Err(format!("after {} events '{line}' is '{other_line}' under values that agree on its reach", one.events.len()));
            }
            seen.held += 1;
            seen.under_others += u64::from(one.values != other.values);
        }
    }
    Ok(seen)
}

pub fn openings() -> bool {
    let mut sum = Seen::default();
    let result = share(NIGHTS, None, compared, |seen| {
        sum.held += seen.held;
        sum.under_others += seen.under_others;
        sum.differ += seen.differ;
    });
    match result {
        Ok(count) => {
            println!("{count} nights under two openings each: reports, numbers and all lines without votes are the same");
            println!("{} v lines had to be the same and are, {} of them under openings that differ elsewhere", sum.held, sum.under_others);
            println!("{} others differ", sum.differ);
            // a test that could not fail would say nothing
            sum.under_others > 1000 && sum.differ > 1000
        }
        Err(failure) => {
            println!("seed {SEED}, night {}: {}", failure.case, failure.why);
            false
        }
    }
}
