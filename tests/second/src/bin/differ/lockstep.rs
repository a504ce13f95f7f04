//! Nights in lock step: in each round all send to all, then each receives from those it is to hear, then all step.

use crate::random::Random;
use second::machine::Event;

/// One round; `heard(p)` is whom process p hears in it.
pub fn round(size: usize, heard: impl Fn(u8) -> Vec<u8>) -> Vec<Event> {
    let all = 0..size as u8;
    let sends = all.clone().map(|process| Event::Broadcast { process });
    let receives = all.clone().flat_map(|receiver| heard(receiver).into_iter().map(move |sender| Event::Receive { receiver, sender }));
    let steps = all.map(|process| Event::Step { process });
    sends.chain(receives).chain(steps).collect()
}

/// So many rounds; in each, all hear all, nobody, or themselves.
pub fn rounds(random: &mut Random, size: usize, many: usize) -> Vec<Event> {
    let mut events = Vec::new();
    for _ in 0..many {
        let kind = random.below(3);
        events.extend(round(size, |process| match kind {
            0 => (0..size as u8).collect(),
            1 => Vec::new(),
            _ => vec![process],
        }));
    }
    events
}
