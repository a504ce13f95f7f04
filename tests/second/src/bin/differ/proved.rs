//! The proved side, as it is delivered: the C call in a program that makes it as often as it is asked for (c/calls.c), and the program sheet, loaded once
//! and run anew for each trace (c/many.c). The words that start them come from the environment.

use std::io::{self, Read, Write};
use std::process::{Child, Command, Stdio};

/// The words of a command, one a line, in the environment variable of this name.
pub fn words(name: &str) -> Vec<String> {
    let Ok(found) = std::env::var(name) else {
        eprintln!("differ: {name} must hold the words of a command, one a line; tests/second/run sets it");
        std::process::exit(2);
    };
    found.lines().map(str::to_string).collect()
}

pub fn command(words: &[String]) -> Command {
    let mut command = Command::new(&words[0]);
    command.args(&words[1..]);
    command
}

/// A program that answers what it is asked. One that ends is started again at the next question.
struct Server {
    words: Vec<String>,
    child: Option<Child>,
}

impl Server {
    fn new(name: &str) -> Server {
        Server { words: words(name), child: None }
    }

    fn child(&mut self) -> io::Result<&mut Child> {
        if self.child.is_none() {
            self.child = Some(command(&self.words).stdin(Stdio::piped()).stdout(Stdio::piped()).spawn()?);
        }
        Ok(self.child.as_mut().expect("it has just been started"))
    }

    /// Writes the question and reads the answer; where the program ends in the midst of it, that is the answer.
    fn ask<T>(&mut self, question: &[&[u8]], answer: impl Fn(&mut dyn Read) -> io::Result<T>) -> Result<T, String> {
        let asked = self.child().and_then(|child| {
            let to = child.stdin.as_mut().expect("its standard input is a pipe");
            to.write_all(&question.concat())?;
            to.flush()?;
            answer(child.stdout.as_mut().expect("its standard output is a pipe"))
        });
        asked.map_err(|error| {
            let ended = self.child.take().map(|mut child| {
                let _ = child.kill();
                child.wait()
            });
            format!("it ended without an answer: {error}; {ended:?}")
        })
    }
}

impl Drop for Server {
    fn drop(&mut self) {
        if let Some(mut child) = self.child.take() {
            // its input ends, and so does it
            drop(child.stdin.take());
            let _ = child.wait();
        }
    }
}

fn number(from: &mut dyn Read) -> io::Result<u32> {
    let mut bytes = [0; 4];
    from.read_exact(&mut bytes)?;
    Ok(u32::from_le_bytes(bytes))
}

fn size(bytes: &[u8]) -> [u8; 4] {
    (bytes.len() as u32).to_le_bytes()
}

/// Both sides of the library that people use. Each thread has its own.
pub struct Proved {
    calls: Server,
    sheets: Server,
}

impl Proved {
    pub fn new() -> Proved {
        Proved { calls: Server::new("TONGSPARKLE_CALLS"), sheets: Server::new("TONGSPARKLE_SHEETS") }
    }

    /// The number that the C call gives, and what it makes of the report. An error says what is wrong with the call itself.
    pub fn call(&mut self, trace: &[u8], report: &[u8]) -> Result<(u32, Vec<u8>), String> {
        let room = report.len();
        let answer = self.calls.ask(&[&size(report), &size(trace), report, trace], |from| {
            let (given, kept) = (number(from)?, number(from)?);
            let mut after = vec![0; room];
            from.read_exact(&mut after)?;
            Ok((given, kept, after))
        });
        let (given, kept, after) = answer.map_err(|error| format!("the C call: {error}"))?;
        if kept != 1 {
            return Err("the C call changed the trace, or a byte before the trace or the report".to_string());
        }
        Ok((given, after))
    }

    /// What the program writes for this trace.
    pub fn sheet(&mut self, trace: &[u8]) -> Result<String, String> {
        let answer = self.sheets.ask(&[&size(trace), trace], |from| {
            let (status, length) = (number(from)?, number(from)?);
            let mut text = vec![0; length as usize];
            from.read_exact(&mut text)?;
            Ok((status, text))
        });
        let (status, text) = answer.map_err(|error| format!("the program: {error}"))?;
        if status != 0 {
            return Err(format!("the program ended with status {status:#x}"));
        }
        String::from_utf8(text).map_err(|_| "the program wrote bytes that are no text".to_string())
    }
}
