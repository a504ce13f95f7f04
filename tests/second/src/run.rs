//! What a run holds: its processes, and the messages in transit.
//!
//! A message in transit is looked up by its receiver, its round and its sender.

use crate::voting::{Content, State};
use std::collections::{BTreeMap, BTreeSet};
use std::ops::Range;

/// A message with all it carries. The order of the fields keeps the messages to one receiver for one round
/// side by side.
#[derive(Clone, Debug, PartialEq, Eq, PartialOrd, Ord)]
pub struct Message {
    pub receiver: u8,
    pub round: u32,
    pub sender: u8,
    pub content: Content,
    pub reach: BTreeSet<u8>,
}

/// At how many accepted events each stage held.
#[derive(Clone, Copy, Debug, Default, PartialEq, Eq)]
pub struct Counts {
    pub s: u32,
    pub c: u32,
    pub p: u32,
    pub i: u32,
}

/// What a run holds for one process.
#[derive(Clone, Debug, PartialEq, Eq)]
pub struct Site {
    pub round: u32,
    pub state: State,
    /// The processes it has sent to this round.
    pub sent: BTreeSet<u8>,
    /// The messages heard this round, by sender.
    pub heard: BTreeMap<u8, Message>,
    pub reach: BTreeSet<u8>,
    pub counts: Counts,
}

/// A run: its processes, the messages in transit, and the number of accepted events.
#[derive(Clone, Debug, PartialEq, Eq)]
pub struct Run {
    pub sites: Vec<Site>,
    pub transit: BTreeSet<Message>,
    pub accepted: u32,
}

impl Site {
    /// 01: "At opening: round 1, vote and decision absent, both sets empty, reach holding the process itself,
    /// counts zero".
    pub(crate) fn open(process: u8, value: u32) -> Site {
        Site {
            round: 1,
            state: State { value, vote: None, decision: None },
            sent: BTreeSet::new(),
            heard: BTreeMap::new(),
            reach: BTreeSet::from([process]),
            counts: Counts::default(),
        }
    }
}

/// What the events and their tests ask of a run.
impl Run {
    pub(crate) fn processes(&self) -> Range<u8> {
        // N is at most MOST_PROCESSES.
        0..self.sites.len() as u8
    }

    pub(crate) fn site(&self, process: u8) -> &Site {
        &self.sites[usize::from(process)]
    }

    pub(crate) fn site_mut(&mut self, process: u8) -> &mut Site {
        &mut self.sites[usize::from(process)]
    }

    /// 01: "The lead of one process over another is a signed number, its round minus the other's".
    pub(crate) fn lead(&self, process: u8, other: u8) -> i64 {
        i64::from(self.site(process).round) - i64::from(self.site(other).round)
    }

    /// The message sending function S_p, the same for every receiver.
    pub(crate) fn content(&self, process: u8) -> Content {
        let state = self.site(process).state;
        Content { value: state.value, vote: state.vote }
    }

    /// The message in transit from the sender for the receiver's current round. There is at most one, as a
    /// process sends to another at most once in a round.
    pub(crate) fn message(&self, receiver: u8, sender: u8) -> Option<&Message> {
        let round = self.site(receiver).round;
        let wanted = least_message(receiver, round, sender)..least_message(receiver, round, sender + 1);
        self.transit.range(wanted).next()
    }

    /// 01: "a message for its current round is in transit to it".
    pub(crate) fn is_awaited(&self, receiver: u8) -> bool {
        let round = self.site(receiver).round;
        let current = least_message(receiver, round, 0)..least_message(receiver, round + 1, 0);
        self.transit.range(current).next().is_some()
    }

    pub(crate) fn discard_older(&mut self, process: u8) {
        let older = least_message(process, 0, 0)..least_message(process, self.site(process).round, 0);
        let late: Vec<Message> = self.transit.range(older).cloned().collect();
        for message in late {
            self.transit.remove(&message);
        }
    }
}

/// The least of all messages with these three first fields, as a bound for looking them up.
fn least_message(receiver: u8, round: u32, sender: u8) -> Message {
    Message { receiver, round, sender, content: Content { value: 0, vote: None }, reach: BTreeSet::new() }
}
