//! The second replay: a plain reference of document 01, written from its text and from documents 000
//! and 003, without the crates of the proved one.
//!
//! It replays a trace of events and says what the run then holds. It is written to be read beside the
//! documents, with sets and maps where they speak of sets and maps, so that a quicker replay can be
//! held against it.
//!
//! `voting` is the rule of document 003, `run` what a run of document 000's round machine holds, `machine` what
//! its events do, `trace` the reader above the machine, `sheet` what people and the monitoring service get.
//!
//! Where document 01 leaves a choice, this is the one taken:
//! - The opening is no event: it is not counted and no stage is judged at it, as in the example of the sheet.
//! - A broadcast tests 8 before any target's 3 or 4, also where its first target would be refused.
//! - 13 is tested only after an end record of length 0; another length is 11.
//! - The reach in a report is the mask of the sheet: process k is bit k.
//! - A trace with a refusal is an answer like any other: the program's exit status is 0.

pub mod machine;
pub mod run;
pub mod sheet;
pub mod trace;
pub mod voting;
