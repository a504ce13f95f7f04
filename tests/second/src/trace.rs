//! Trace records and the replay of a trace.
//!
//! The reader stands above the round machine and uses only `Run::open` and `Run::apply` of it.

use crate::machine::{Event, Finished, ACCEPTED};
use crate::run::Run;

/// The numbers given back by the reader, as 01 lists them.
pub const CUT_SHORT: u8 = 9;
pub const TAG_UNKNOWN: u8 = 10;
pub const WRONG_LENGTH: u8 = 11;
pub const WRONG_PLACE: u8 = 12;
pub const BYTES_AFTER_END: u8 = 13;

/// What a replay leaves: the run, if an opening was accepted; what its steps report, in their order; and the
/// number of the first refusal, or 0.
#[derive(Clone, Debug, PartialEq, Eq)]
pub struct Night {
    pub run: Option<Run>,
    pub steps: Vec<Finished>,
    pub number: u8,
}

/// Replays a trace. Every byte string has an answer.
///
/// 01: "Reading stops at the first refusal; what was accepted before it stands."
pub fn replay(trace: &[u8]) -> Night {
    match first_record(trace) {
        // 01: "A refused opening gives no run."
        Err(number) => Night { run: None, steps: Vec::new(), number },
        Ok((mut run, rest)) => {
            let mut steps = Vec::new();
            let number = later_records(rest, &mut run, &mut steps).err().unwrap_or(ACCEPTED);
            Night { run: Some(run), steps, number }
        }
    }
}

/// The six tags.
#[derive(Clone, Copy, PartialEq, Eq)]
enum Tag {
    Opening,
    Send,
    Receive,
    Step,
    Broadcast,
    End,
}

impl Tag {
    fn of(byte: u8) -> Result<Tag, u8> {
        match byte {
            0x01 => Ok(Tag::Opening),
            0x10 => Ok(Tag::Send),
            0x11 => Ok(Tag::Receive),
            0x12 => Ok(Tag::Step),
            0x13 => Ok(Tag::Broadcast),
            0x7F => Ok(Tag::End),
            _ => Err(TAG_UNKNOWN),
        }
    }
}

/// The first record and the bytes after it. 01: "first record is not an opening" gives 12.
fn first_record(bytes: &[u8]) -> Result<(Run, &[u8]), u8> {
    let (tag, length, rest) = head(bytes)?;
    if tag != Tag::Opening {
        return Err(WRONG_PLACE);
    }
    opening(length, rest)
}

/// The records after the opening, up to the end record. 01: "or a later one is" an opening gives 12.
fn later_records(bytes: &[u8], run: &mut Run, steps: &mut Vec<Finished>) -> Result<(), u8> {
    let mut rest = bytes;
    loop {
        let (tag, length, after_head) = head(rest)?;
        let (expected, event): (usize, fn(&[u8]) -> Event) = match tag {
            Tag::Opening => return Err(WRONG_PLACE),
            Tag::End => return end(length, after_head),
            Tag::Send => (2, |body| Event::Send { from: body[0], to: body[1] }),
            Tag::Receive => (2, |body| Event::Receive { receiver: body[0], sender: body[1] }),
            Tag::Step => (1, |body| Event::Step { process: body[0] }),
            Tag::Broadcast => (1, |body| Event::Broadcast { process: body[0] }),
        };
        if length != expected {
            return Err(WRONG_LENGTH);
        }
        let (body, after) = take(after_head, length)?;
        steps.extend(run.apply(event(body))?);
        rest = after;
    }
}

/// Tag, length, and the bytes after them. 01: "fewer than 3 bytes left, 9; tag, 10".
fn head(bytes: &[u8]) -> Result<(Tag, usize, &[u8]), u8> {
    let (head, rest) = take(bytes, 3)?;
    let tag = Tag::of(head[0])?;
    let length = u16::from_be_bytes([head[1], head[2]]);
    Ok((tag, usize::from(length), rest))
}

/// 01: "For an opening after 12: length 0, 11; first body byte missing, 9; length not 1 plus 4 times N, 11; rest
/// missing, 9; then 1."
fn opening(length: usize, bytes: &[u8]) -> Result<(Run, &[u8]), u8> {
    if length == 0 {
        return Err(WRONG_LENGTH);
    }
    let (n, after_n) = take(bytes, 1)?;
    if length != 1 + 4 * usize::from(n[0]) {
        return Err(WRONG_LENGTH);
    }
    let (body, rest) = take(after_n, length - 1)?;
    let values: Vec<u32> = body.chunks_exact(4).map(|four| u32::from_be_bytes([four[0], four[1], four[2], four[3]])).collect();
    Ok((Run::open(&values)?, rest))
}

/// The end record is empty, and nothing stands after it.
fn end(length: usize, rest: &[u8]) -> Result<(), u8> {
    if length != 0 {
        Err(WRONG_LENGTH)
    } else if !rest.is_empty() {
        Err(BYTES_AFTER_END)
    } else {
        Ok(())
    }
}

/// The first bytes and those after them. 01: "trace ends inside a record or without an end record" gives 9.
fn take(bytes: &[u8], count: usize) -> Result<(&[u8], &[u8]), u8> {
    bytes.split_at_checked(count).ok_or(CUT_SHORT)
}
