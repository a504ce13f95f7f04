//! The second replay held against the proved one. `differ --help` says how; tests/second/run builds all that it needs and starts it.

mod agree;
mod compare;
mod limits;
mod lockstep;
mod nights;
mod openings;
mod paper;
mod pieces;
mod proved;
mod random;
mod records;
mod share;
mod shrink;

use std::path::PathBuf;
use std::process::ExitCode;

const HELP: &str = "\
usage: differ LOOK [WORDS]
  random [FIXED FRESH]
            so many random traces of a fixed seed and of a fresh one (20000 and 2000 if not given) through both replays. In the environment,
            SECONDS_TO_TEST goes on with fresh ones for so many seconds, SEED is the seed in place of a fresh one, and SMALL is the folder for traces
            on which the replays differ, made small
  limits    traces that reach each limit
  pieces    the program fed in pieces
  openings  the same events under two openings
  paper     document 003's numbers, and the proved rule on each state behind them
  file FILES
            the traces in these files through both replays, with several rooms for the report
The environment names the proved side, the words of a command one a line: TONGSPARKLE_CALLS (c/calls.c), TONGSPARKLE_SHEET (the program),
TONGSPARKLE_SHEETS (the program with c/many.c). The exit status is 0 where all agrees, 1 where not, 2 where it cannot be told.
";

fn number(word: Option<&String>, otherwise: u64) -> u64 {
    word.map_or(otherwise, |word| {
        word.parse().unwrap_or_else(|_| {
            eprintln!("differ: '{word}' is no number");
            std::process::exit(2)
        })
    })
}

fn main() -> ExitCode {
    let words: Vec<String> = std::env::args().skip(1).collect();
    let Some(look) = words.first() else {
        eprint!("{HELP}");
        return ExitCode::from(2);
    };
    let right = match look.as_str() {
        "random" => {
            let said = |name: &str| std::env::var(name).ok().filter(|word| !word.is_empty());
            let seconds = number(said("SECONDS_TO_TEST").as_ref(), 0);
            let seed = number(said("SEED").as_ref(), random::fresh_seed());
            let small = PathBuf::from(said("SMALL").unwrap_or(".".to_string()));
            agree::agree(number(words.get(1), 20_000), number(words.get(2), 2_000), seed, seconds, &small)
        }
        "limits" => limits::limits(),
        "pieces" => pieces::pieces(),
        "openings" => openings::openings(),
        "paper" => paper::paper(),
        "file" if words.len() > 1 => words[1..].iter().all(|file| agree::agree_on(file)),
        "--help" => {
            print!("{HELP}");
            true
        }
        _ => {
            eprint!("{HELP}");
            return ExitCode::from(2);
        }
    };
    ExitCode::from(u8::from(!right))
}
