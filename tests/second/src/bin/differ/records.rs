//! The records of a trace as bytes, and nights: an opening, events, and what stands behind them.

use second::machine::Event;

pub const END: [u8; 3] = [0x7f, 0, 0];

/// A record with this tag, the length of this body, and the body.
pub fn record(tag: u8, body: &[u8]) -> Vec<u8> {
    let length = (body.len() as u16).to_be_bytes();
    [&[tag], &length[..], body].concat()
}

pub fn opening(values: &[u32]) -> Vec<u8> {
    let mut body = vec![values.len() as u8];
    for value in values {
        body.extend(value.to_be_bytes());
    }
    record(0x01, &body)
}

pub fn event(event: Event) -> Vec<u8> {
    match event {
        Event::Send { from, to } => record(0x10, &[from, to]),
        Event::Receive { receiver, sender } => record(0x11, &[receiver, sender]),
        Event::Step { process } => record(0x12, &[process]),
        Event::Broadcast { process } => record(0x13, &[process]),
    }
}

/// A trace in the making.
#[derive(Clone)]
pub struct Night {
    pub values: Vec<u32>,
    pub events: Vec<Event>,
    pub tail: Vec<u8>,
}

impl Night {
    /// A night with its end record and nothing else behind its events.
    pub fn ended(values: Vec<u32>, events: Vec<Event>) -> Night {
        Night { values, events, tail: END.to_vec() }
    }

    pub fn bytes(&self) -> Vec<u8> {
        let mut bytes = opening(&self.values);
        for one in &self.events {
            bytes.extend(event(*one));
        }
        bytes.extend(&self.tail);
        bytes
    }

    /// The same night as far as so many events, and its end record.
    pub fn until(&self, events: usize) -> Night {
        Night::ended(self.values.clone(), self.events[..events].to_vec())
    }

    /// The same night with other opening values.
    pub fn opened_with(&self, values: Vec<u32>) -> Night {
        Night { values, ..self.clone() }
    }
}
