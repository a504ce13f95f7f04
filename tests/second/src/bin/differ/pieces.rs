//! The program fed through a pipe, one byte at a time, in random pieces, and whole: its text is the same, and that of the second replay. The pipe keeps
//! the pieces apart, so that the program reads each by itself.

use crate::lockstep;
use crate::nights;
use crate::proved::{command, words};
use crate::random::Random;
use crate::records::Night;
use crate::share::share;
use second::machine::MOST_PROCESSES;
use second::{sheet, trace};
use std::io::{self, PipeReader, PipeWriter, Read, Write};
use std::os::fd::AsRawFd;
use std::process::Stdio;

const SEED: u64 = 2;
const NIGHTS: u64 = 150;
/// The most bytes that such a pipe keeps together.
const PIECE: usize = 4096;

extern "C" {
    fn fcntl(file: i32, command: i32, ...) -> i32;
}

/// A pipe from which each read takes what one write gave, and no more.
fn pipe_of_pieces() -> io::Result<(PipeReader, PipeWriter)> {
    const SET_FLAGS: i32 = 4;
    const PIECES: i32 = if cfg!(target_arch = "x86_64") { 0o40000 } else { 0o200000 };
    let (reader, writer) = io::pipe()?;
    // The flag (O_DIRECT) is one of an open file; no memory is handed over.
    match unsafe { fcntl(writer.as_raw_fd(), SET_FLAGS, PIECES) } {
        0 => Ok((reader, writer)),
        _ => Err(io::Error::last_os_error()),
    }
}

/// What the program writes where its input comes in these pieces.
fn fed(pieces: &[&[u8]]) -> io::Result<String> {
    let (reader, mut writer) = pipe_of_pieces()?;
    let mut child = command(&words("TONGSPARKLE_SHEET")).stdin(Stdio::from(reader)).stdout(Stdio::piped()).spawn()?;
    let mut text = String::new();
    std::thread::scope(|scope| {
        // the program may stop reading before the end; what it writes is compared all the same
        scope.spawn(move || pieces.iter().try_for_each(|piece| writer.write_all(piece)));
        child.stdout.take().expect("its standard output is a pipe").read_to_string(&mut text)
    })?;
    child.wait()?;
    Ok(text)
}

/// Cuts the bytes at random into pieces of at most so many.
fn cut<'a>(random: &mut Random, mut bytes: &'a [u8], most: usize) -> Vec<&'a [u8]> {
    let mut pieces = Vec::new();
    while !bytes.is_empty() {
        let (piece, rest) = bytes.split_at(random.between(1, most.min(bytes.len())));
        pieces.push(piece);
        bytes = rest;
    }
    pieces
}

/// Most nights are random cases; some are longer than what the program holds at a time, and have more lines than that.
fn a_trace(random: &mut Random, case: u64) -> Vec<u8> {
    match case {
        0 | 1 => {
            let size = random.between(2, MOST_PROCESSES);
            Night::ended(nights::values(random, size), lockstep::rounds(random, size, 30_000 / size)).bytes()
        }
        _ => nights::made(SEED, case).case.trace,
    }
}

fn compared(case: u64) -> Result<(), String> {
    let random = &mut Random::new(SEED, case);
    let whole = a_trace(random, case);
    let wanted = sheet::text(&trace::replay(&whole));
    let ways = [
        ("whole", whole.chunks(PIECE).collect::<Vec<_>>()),
        ("one byte at a time", whole.chunks(1).collect()),
        ("in short pieces", cut(random, &whole, 9)),
        ("in pieces of any length", cut(random, &whole, PIECE)),
    ];
    for (way, pieces) in ways {
        let text = fed(&pieces).map_err(|error| error.to_string())?;
        if text != wanted {
            return Err(format!("{way}, the text is another; it ends in {:?} and not in {:?}", text.lines().last(), wanted.lines().last()));
        }
    }
    Ok(())
}

pub fn pieces() -> bool {
    match share(NIGHTS, None, |_, case| compared(case), drop) {
        Ok(count) => {
            println!("{count} traces give the same text whole, one byte at a time, and in random pieces");
            true
        }
        Err(failure) => {
            println!("seed {SEED}, trace {}: {}", failure.case, failure.why);
            false
        }
    }
}
