//! The round machine: the fine-grained executions of document 000, in the variation without heard-of sets
//! fixed in advance, with the late and early messages, limits, stages and refusals of document 01.
//!
//! Round r here is round r - 1 in 000.

use crate::run::{Message, Run, Site};
use crate::voting::{self, Content};
use std::collections::BTreeSet;

/// 01: "N is 0 or above 16".
pub const MOST_PROCESSES: usize = 16;
/// 01: "Lead 8: refused."
pub const REFUSED_LEAD: i64 = 8;
/// 01: "step at round 65,535".
pub const LAST_ROUND: u32 = 65_535;
/// 01: "accepted events would pass 1,000,000".
pub const MOST_EVENTS: u32 = 1_000_000;

/// The numbers given back by the machine, as 01 lists them.
pub const ACCEPTED: u8 = 0;
pub const WRONG_N: u8 = 1;
pub const WRONG_PROCESS: u8 = 2;
pub const SENT_ALREADY: u8 = 3;
pub const LEAD_TOO_LONG: u8 = 4;
pub const NO_SUCH_MESSAGE: u8 = 5;
pub const NOT_SENT_TO_ALL: u8 = 6;
pub const NO_ROUND_LEFT: u8 = 7;
pub const NO_EVENT_LEFT: u8 = 8;

/// What may happen in a run.
#[derive(Clone, Copy, Debug, PartialEq, Eq)]
pub enum Event {
    Send { from: u8, to: u8 },
    Receive { receiver: u8, sender: u8 },
    Step { process: u8 },
    Broadcast { process: u8 },
}

/// The four stages of 01.
#[derive(Clone, Copy, Debug, PartialEq, Eq)]
pub enum Stage {
    S,
    C,
    P,
    I,
}

/// What an accepted step reports: the heard-of set of the round that it finishes.
#[derive(Clone, Debug, PartialEq, Eq)]
pub struct Finished {
    pub process: u8,
    pub round: u32,
    pub heard: BTreeSet<u8>,
}

/// What a run promises to those above it.
impl Run {
    /// Opens a run of as many processes as there are values. 01: "A refused opening gives no run."
    pub fn open(values: &[u32]) -> Result<Run, u8> {
        if values.is_empty() || values.len() > MOST_PROCESSES {
            return Err(WRONG_N);
        }
        let sites = (0..).zip(values).map(|(process, &value)| Site::open(process, value)).collect();
        Ok(Run { sites, transit: BTreeSet::new(), accepted: 0 })
    }

    /// 0 where the event would be accepted, else the number of its refusal. Nothing changes.
    ///
    /// 01: "Order for an event: 2, 8, then for a send 3, 4; receive 5; step 6, 7."
    pub fn number(&self, event: Event) -> u8 {
        if named(event).iter().any(|process| !self.processes().contains(process)) {
            return WRONG_PROCESS;
        }
        if self.accepted + self.weight(event) > MOST_EVENTS {
            return NO_EVENT_LEFT;
        }
        match event {
            Event::Send { from, to } => self.send_number(from, to),
            Event::Receive { receiver, sender } => self.receive_number(receiver, sender),
            Event::Step { process } => self.step_number(process),
            Event::Broadcast { process } => self.broadcast_number(process),
        }
    }

    /// Does the event, or leaves everything as it was and gives the number of the refusal.
    pub fn apply(&mut self, event: Event) -> Result<Option<Finished>, u8> {
        let number = self.number(event);
        if number != ACCEPTED {
            return Err(number);
        }
        match event {
            Event::Send { from, to } => self.send(from, to),
            Event::Receive { receiver, sender } => self.receive(receiver, sender),
            Event::Step { process } => return Ok(Some(self.step(process))),
            Event::Broadcast { process } => self.broadcast(process),
        }
        Ok(None)
    }

    /// The stage of a process, whose number is below N, as the run stands.
    pub fn stage(&self, process: u8) -> Stage {
        let site = self.site(process);
        if site.sent.len() < self.sites.len() {
            Stage::S
        } else if self.is_awaited(process) {
            Stage::C
        } else if site.heard.len() < self.sites.len() {
            Stage::P
        } else {
            Stage::I
        }
    }
}

/// The refusals of each kind of event, once its process numbers and the number of events are known to be right.
impl Run {
    /// How many events it is. 01: "A broadcast tests 8 with all N events at once."
    fn weight(&self, event: Event) -> u32 {
        match event {
            Event::Broadcast { .. } => self.sites.len() as u32,
            _ => 1,
        }
    }

    fn send_number(&self, from: u8, to: u8) -> u8 {
        if self.site(from).sent.contains(&to) {
            SENT_ALREADY
        } else if self.lead(from, to) >= REFUSED_LEAD {
            LEAD_TOO_LONG
        } else {
            ACCEPTED
        }
    }

    fn receive_number(&self, receiver: u8, sender: u8) -> u8 {
        match self.message(receiver, sender) {
            None => NO_SUCH_MESSAGE,
            Some(_) => ACCEPTED,
        }
    }

    fn step_number(&self, process: u8) -> u8 {
        let site = self.site(process);
        if site.sent.len() < self.sites.len() {
            NOT_SENT_TO_ALL
        } else if site.round == LAST_ROUND {
            NO_ROUND_LEFT
        } else {
            ACCEPTED
        }
    }

    /// 01: "the number is that of the first such target". A send changes neither the rounds nor whether the
    /// process has sent to another target, so all targets can be tested before the first send.
    fn broadcast_number(&self, process: u8) -> u8 {
        let mut numbers = self.processes().map(|to| self.send_number(process, to));
        numbers.find(|&number| number != ACCEPTED).unwrap_or(ACCEPTED)
    }
}

/// The accepted events.
impl Run {
    /// 01: "Judged for every process just before each accepted event" and "each process's count for its stage
    /// rises by one".
    fn count(&mut self) {
        self.accepted += 1;
        for process in self.processes() {
            let stage = self.stage(process);
            let counts = &mut self.site_mut(process).counts;
            match stage {
                Stage::S => counts.s += 1,
                Stage::C => counts.c += 1,
                Stage::P => counts.p += 1,
                Stage::I => counts.i += 1,
            }
        }
    }

    /// 01: "q joins p's sent set. Lead of p over q below 0: the message is late and is discarded. Lead 0 to 7:
    /// it is in transit with p's round, value, vote and reach."
    fn send(&mut self, from: u8, to: u8) {
        self.count();
        if self.lead(from, to) >= 0 {
            let site = self.site(from);
            let (round, reach) = (site.round, site.reach.clone());
            let content = self.content(from);
            self.transit.insert(Message { receiver: to, round, sender: from, content, reach });
        }
        self.site_mut(from).sent.insert(to);
    }

    /// 01: "It leaves transit; q joins p's heard set."
    fn receive(&mut self, receiver: u8, sender: u8) {
        self.count();
        let message = self.message(receiver, sender).expect("an accepted receive has its message in transit").clone();
        self.transit.remove(&message);
        self.site_mut(receiver).heard.insert(sender, message);
    }

    /// 01: "The heard-of set for that round is reported, the voting rule is applied, the reach set gains the reach
    /// carried by each heard message, the round rises by one, both sets empty. Messages to p for older rounds leave
    /// transit."
    fn step(&mut self, process: u8) -> Finished {
        self.count();
        let heard = std::mem::take(&mut self.site_mut(process).heard);
        let contents: Vec<Content> = heard.values().map(|message| message.content).collect();
        let gained: BTreeSet<u8> = heard.values().flat_map(|message| message.reach.clone()).collect();
        let site = self.site_mut(process);
        let finished = Finished { process, round: site.round, heard: heard.keys().copied().collect() };
        site.state = voting::next(site.round, site.state, &contents);
        site.reach.extend(gained);
        site.round += 1;
        site.sent.clear();
        self.discard_older(process);
        finished
    }

    /// 01: "N sends in ascending order, counted as N events with each send's own stages."
    fn broadcast(&mut self, process: u8) {
        for to in self.processes() {
            self.send(process, to);
        }
    }
}

/// The process numbers that an event names.
fn named(event: Event) -> Vec<u8> {
    match event {
        Event::Send { from, to } => vec![from, to],
        Event::Receive { receiver, sender } => vec![receiver, sender],
        Event::Step { process } | Event::Broadcast { process } => vec![process],
    }
}
