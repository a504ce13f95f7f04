//! The program: prints the sheet of a trace, or its report in hex.

use second::{sheet, trace};
use std::ffi::{OsStr, OsString};
use std::io::{self, Read, Write};
use std::process::ExitCode;

const HELP: &str = "\
usage: second [FILE]            print the sheet of the trace
       second --report [FILE]   print the number, then the report's rows in hex
       second --help            print this

The trace is read from FILE, or from standard input without one.
The exit status is 0 whatever the number of the trace is, and 2 where the
arguments are wrong or the trace cannot be read.
";

/// What the arguments ask for.
enum Wish {
    Help,
    Sheet(Option<OsString>),
    Report(Option<OsString>),
}

fn main() -> ExitCode {
    let arguments: Vec<OsString> = std::env::args_os().skip(1).collect();
    match wish(&arguments).and_then(answer).and_then(print) {
        Ok(()) => ExitCode::SUCCESS,
        Err(error) => {
            eprintln!("second: {error}");
            ExitCode::from(2)
        }
    }
}

fn wish(arguments: &[OsString]) -> Result<Wish, String> {
    match arguments.split_first() {
        None => Ok(Wish::Sheet(None)),
        Some((first, [])) if first == "--help" => Ok(Wish::Help),
        Some((first, files)) if first == "--report" => Ok(Wish::Report(only_file(files)?)),
        Some(_) => Ok(Wish::Sheet(only_file(arguments)?)),
    }
}

fn only_file(files: &[OsString]) -> Result<Option<OsString>, String> {
    match files {
        [] => Ok(None),
        [file] if looks_like_option(file) => Err(format!("unknown option {}; see --help", file.display())),
        [file] => Ok(Some(file.clone())),
        _ => Err("more than one argument where one FILE is wanted; see --help".to_string()),
    }
}

fn looks_like_option(file: &OsStr) -> bool {
    file.as_encoded_bytes().starts_with(b"-")
}

fn answer(wish: Wish) -> Result<String, String> {
    match wish {
        Wish::Help => Ok(HELP.to_string()),
        Wish::Sheet(file) => Ok(sheet::text(&trace::replay(&read(file)?))),
        Wish::Report(file) => Ok(report(&read(file)?)),
    }
}

fn read(file: Option<OsString>) -> Result<Vec<u8>, String> {
    match file {
        Some(file) => std::fs::read(&file).map_err(|error| format!("cannot read {}: {error}", file.display())),
        None => {
            let mut bytes = Vec::new();
            let done = io::stdin().lock().read_to_end(&mut bytes);
            done.map(|_| bytes).map_err(|error| format!("cannot read standard input: {error}"))
        }
    }
}

/// The number, then a line of hex digits for each process. The report does not say how many rows it has, so
/// N is asked of a replay.
fn report(bytes: &[u8]) -> String {
    let mut room = [0; sheet::LEAST_ROOM];
    let number = sheet::report(bytes, &mut room);
    let n = trace::replay(bytes).run.map_or(0, |run| run.sites.len());
    let rows = room.chunks_exact(sheet::ROW).take(n).map(hex);
    std::iter::once(number.to_string()).chain(rows).map(|line| line + "\n").collect()
}

fn hex(row: &[u8]) -> String {
    row.iter().map(|byte| format!("{byte:02x}")).collect()
}

fn print(text: String) -> Result<(), String> {
    io::stdout().lock().write_all(text.as_bytes()).map_err(|error| format!("cannot write: {error}"))
}
