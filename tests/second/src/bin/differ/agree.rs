//! Random traces through both replays, from a fixed seed and then from a fresh one, which is printed. A case on which they differ is made small and
//! written as a file.

use crate::compare::{both, Agreed};
use crate::nights::{self, Case};
use crate::proved::Proved;
use crate::share::{share, Failure};
use crate::shrink::shrink;
use second::machine::{LAST_ROUND, MOST_PROCESSES, REFUSED_LEAD};
use second::run::Run;
use second::sheet::{LEAST_ROOM, TOO_LITTLE_ROOM};
use std::path::Path;
use std::time::{Duration, Instant};

/// The seed of the traces that are the same in every run.
const FIXED: u64 = 1;

/// How many numbers there are: from 0 to the greatest, which only the C call gives.
const NUMBERS: usize = TOO_LITTLE_ROOM as usize + 1;

/// From 0 to the refused lead: what a lead can be, and for how many rounds messages can wait at one process.
const LEADS: usize = REFUSED_LEAD as usize + 1;

/// What the traces of a run were, so that it can be seen what they try.
#[derive(Default)]
struct Seen {
    calls: [u64; NUMBERS],
    sheets: [u64; NUMBERS],
    /// by the greatest lead of one process over another, at the end of the trace
    leads: [u64; LEADS],
    /// by the most rounds for which messages are in transit to one process, at the end of the trace
    windows: [u64; LEADS],
    /// by the last round that a process comes to
    rounds: [u64; ROUNDS.len()],
    sizes: [u64; MOST_PROCESSES + 1],
    decisions: u64,
    late: u64,
    accepted: u64,
}

/// The last round of a trace counts with the first of these that it does not pass.
const ROUNDS: [u32; 8] = [1, 2, 5, 10, 30, 100, 300, LAST_ROUND];

struct Found {
    agreed: Agreed,
    late: u64,
}

impl Seen {
    fn add(&mut self, found: Found) {
        self.calls[usize::from(found.agreed.call)] += 1;
        self.sheets[usize::from(found.agreed.night.number)] += 1;
        self.late += found.late;
        let Some(run) = found.agreed.night.run else { return };
        let rounds = run.sites.iter().map(|site| site.round);
        let (least, most) = (rounds.clone().min().unwrap_or(0), rounds.max().unwrap_or(0));
        self.leads[(most - least) as usize] += 1;
        self.windows[fullest_window(&run)] += 1;
        self.rounds[ROUNDS.iter().position(|upto| most <= *upto).expect("no round is above the last")] += 1;
        self.sizes[run.sites.len()] += 1;
        self.decisions += run.sites.iter().filter(|site| site.state.decision.is_some()).count() as u64;
        self.accepted += u64::from(run.accepted);
    }

    fn print(&self) {
        println!("  number         {}", columns(&(0..NUMBERS as u64).collect::<Vec<u64>>()));
        println!("  by the C call  {}", columns(&self.calls));
        println!("  by the sheet   {}", columns(&self.sheets));
        println!("  traces by their greatest lead, 0 to {REFUSED_LEAD}:       {}", columns(&self.leads));
        println!("  traces by the rounds waiting at one process: {}", columns(&self.windows));
        println!("  traces by their last round, up to            {}", columns(&ROUNDS.map(u64::from)));
        println!("                                               {}", columns(&self.rounds));
        println!("  traces by N, 1 to {MOST_PROCESSES}:  {}", columns(&self.sizes[1..]));
        println!("  {} events accepted; {} sends came late; {} processes have decided", self.accepted, self.late, self.decisions);
    }

    /// What every run of many traces must have tried.
    fn lacks(&self) -> Option<String> {
        let never = |what: &str, counts: &[u64]| counts.iter().position(|count| *count == 0).map(|at| format!("no trace has {what} {at}"));
        // the sheet has no report, and so not the last number
        never("from the C call the number", &self.calls)
            .or(never("in the sheet the number", &self.sheets[..NUMBERS - 1]))
            .or(never("the greatest lead", &self.leads))
            .or(never("the waiting rounds", &self.windows))
            .or(never("a last round of the kind", &self.rounds))
            .or(never("one less than N,", &self.sizes[1..]))
            .or((self.late < 1000).then(|| "fewer than 1,000 sends came late".to_string()))
            .or((self.decisions < 1000).then(|| "fewer than 1,000 processes have decided".to_string()))
    }
}

fn columns(counts: &[u64]) -> String {
    counts.iter().map(|count| format!("{count:>6}")).collect()
}

/// For how many rounds at most messages are in transit to one process.
fn fullest_window(run: &Run) -> usize {
    let rounds = |receiver| {
        let mut rounds: Vec<u32> = run.transit.iter().filter(|message| message.receiver == receiver).map(|message| message.round).collect();
        rounds.dedup();
        rounds.len()
    };
    (0..run.sites.len() as u8).map(rounds).max().unwrap_or(0)
}

fn compared(proved: &mut Proved, seed: u64, number: u64) -> Result<Found, String> {
    let made = nights::made(seed, number);
    Ok(Found { agreed: both(proved, &made.case)?, late: made.late })
}

/// Compares `fixed` traces of the fixed seed and `fresh` of another, and as many more of that as there is time for. Whether all agree.
pub fn agree(fixed: u64, fresh: u64, seed: u64, seconds: u64, out: &Path) -> bool {
    let until = (seconds > 0).then(|| Instant::now() + Duration::from_secs(seconds));
    let mut seen = Seen::default();
    let all_agree = [(FIXED, fixed, None), (seed, fresh, until)].into_iter().all(|(seed, count, until)| {
        match share(count, until, |proved, number| compared(proved, seed, number), |found| seen.add(found)) {
            Ok(count) => {
                println!("seed {seed}: {count} traces, no difference");
                true
            }
            Err(failure) => {
                tell(seed, &failure, out);
                false
            }
        }
    });
    if !all_agree {
        return false;
    }
    seen.print();
    match seen.lacks() {
        // a shorter run need not have tried everything
        Some(what) if fixed >= 20_000 => {
            println!("the traces try too little: {what}");
            false
        }
        _ => true,
    }
}

/// Whether the replays agree on the trace in this file, whatever the room.
pub fn agree_on(file: &str) -> bool {
    let mut proved = Proved::new();
    let agreed = std::fs::read(file).map_err(|error| error.to_string()).and_then(|trace| {
        [0, LEAST_ROOM - 1, LEAST_ROOM, LEAST_ROOM + 1, 1000]
            .into_iter()
            .try_for_each(|room| both(&mut proved, &Case { trace: trace.clone(), room }).map(drop))
    });
    match &agreed {
        Ok(()) => println!("{file}: no difference"),
        Err(why) => println!("{file}: {why}"),
    }
    agreed.is_ok()
}

/// Says where the replays differ, and writes the case, made small, as a file.
fn tell(seed: u64, failure: &Failure, out: &Path) {
    println!("seed {seed}, trace {}: {}", failure.case, failure.why);
    let mut proved = Proved::new();
    let small = shrink(nights::made(seed, failure.case).case, &mut |case: &Case| both(&mut proved, case).is_err());
    let why = both(&mut proved, &small).err().unwrap_or_default();
    let file = out.join(format!("differs-{seed}-{}.trace", failure.case));
    match std::fs::write(&file, &small.trace) {
        Ok(()) => {
            println!("made small, {} bytes, a report of {} bytes: {why}\nwritten as {}", small.trace.len(), small.room, file.display())
        }
        Err(error) => println!("{} cannot be written: {error}", file.display()),
    }
}
