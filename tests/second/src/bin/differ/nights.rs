//! Random traces. The second replay is the guide to what is allowed next; how fast each process goes and how much it hears changes from night to night
//! and within a night, so that some run far ahead, messages come late or wait for long, and windows fill. A third of the traces are then damaged.

use crate::lockstep;
use crate::random::Random;
use crate::records::{event, opening, record, Night, END};
use second::machine::{Event, LAST_ROUND, MOST_EVENTS, MOST_PROCESSES};
use second::run::Run;
use second::sheet::{LEAST_ROOM, ROW};

/// A trace, and the room that the report has.
#[derive(Clone)]
pub struct Case {
    pub trace: Vec<u8>,
    pub room: usize,
}

/// A random case, and how many of its night's sends were late, before any damage.
pub struct Made {
    pub case: Case,
    pub late: u64,
}

/// One in so many cases is a night that comes to the last round, and one to the last event.
const LONG: u64 = 4000;

/// The case of this seed and number.
pub fn made(seed: u64, number: u64) -> Made {
    let random = &mut Random::new(seed, number);
    match number % LONG {
        1000 => return Made { case: long(random, 1, LAST_ROUND as usize + 65), late: 0 },
        // four processes have 20 events a round at least
        3000 => return Made { case: long(random, 4, MOST_EVENTS as usize / 20 + 100), late: 0 },
        _ => {}
    }
    let (night, late) = night(random);
    let mut trace = match random.below(40) {
        0 | 1 => badly_opened(random, &night),
        2 => noise(random),
        _ => night.bytes(),
    };
    if random.one_in(3) {
        for _ in 0..random.between(1, 3) {
            damage(random, &mut trace);
        }
    }
    Made { case: Case { trace, room: room(random, night.values.len()) }, late }
}

/// A night in lock step of so many rounds, which are more than there may be.
fn long(random: &mut Random, size: usize, rounds: usize) -> Case {
    let night = Night::ended(values(random, size), lockstep::rounds(random, size, rounds));
    Case { trace: night.bytes(), room: LEAST_ROOM }
}

/// A night with an accepted opening, accepted events, and any tail; and how many of the sends were late.
pub fn night(random: &mut Random) -> (Night, u64) {
    let size = match random.below(8) {
        0 => 1,
        1 => 2,
        2 | 3 => 3,
        4 => MOST_PROCESSES,
        _ => random.between(1, MOST_PROCESSES),
    };
    let values = values(random, size);
    let mut run = Run::open(&values).expect("so many processes are allowed");
    let (mut events, mut late) = (Vec::new(), 0);
    let length = match random.below(40) {
        0 => random.between(500, 1500),
        1..=8 => random.between(100, 500),
        9..=28 => random.between(20, 120),
        _ => random.between(0, 20),
    };
    for _ in 0..random.between(1, 4) {
        late += go_on(random, &mut run, &mut events, length);
    }
    let tail = tail(random, &run);
    (Night { values, events, tail }, late)
}

/// Opening values: often a few small ones, so that processes agree, and sometimes any, the ends of the range among them.
pub fn values(random: &mut Random, size: usize) -> Vec<u32> {
    let kind = random.below(4);
    let one = |random: &mut Random| match kind {
        0 => random.below(2) as u32,
        1 => random.below(4) as u32,
        2 => random.pick(&[0, 1, 0x7fff_ffff, 0x8000_0000, u32::MAX - 1, u32::MAX]),
        _ => random.next() as u32,
    };
    (0..size).map(|_| one(random)).collect()
}

/// How often each process is the next to do something, and how often it sends, receives, steps and broadcasts.
struct Habits {
    pace: Vec<usize>,
    actions: [usize; 4],
}

fn habits(random: &mut Random, size: usize) -> Habits {
    let one = random.below(size);
    let kind = random.below(6);
    let pace = (0..size).map(|process| match kind {
        0 => 1,
        // one runs ahead; one stays behind, or stands still
        1 => [1, 30][usize::from(process == one)],
        2 => [12, 1][usize::from(process == one)],
        3 => [12, usize::from(size == 1)][usize::from(process == one)],
        // two camps
        4 => random.pick(&[1, 12]),
        _ => random.between(1, 8),
    });
    let pace = pace.collect();
    let actions = [random.pick(&[1, 4, 10]), random.pick(&[0, 1, 4, 12, 30]), random.pick(&[1, 4, 10]), random.pick(&[0, 1, 6, 20])];
    Habits { pace, actions }
}

/// Adds some accepted events, by one set of habits, so that at most `length` are there; gives how many of their sends are late.
fn go_on(random: &mut Random, run: &mut Run, events: &mut Vec<Event>, length: usize) -> u64 {
    let habits = habits(random, run.sites.len());
    let share = random.between(length / 4, length);
    let (mut left, mut late) = (share, 0);
    for _ in 0..8 * share {
        if left == 0 || events.len() >= length {
            break;
        }
        if let Some(event) = proposal(random, run, &habits) {
            if run.apply(event).is_ok() {
                late += late_sends(run, event);
                events.push(event);
                left -= 1;
            }
        }
    }
    late
}

/// How many sends of an event, which moves nobody to another round, go to a process that is at a later round.
fn late_sends(run: &Run, event: Event) -> u64 {
    let round = |process: u8| run.sites[usize::from(process)].round;
    match event {
        Event::Send { from, to } => u64::from(round(from) < round(to)),
        Event::Broadcast { process } => run.sites.iter().filter(|site| round(process) < site.round).count() as u64,
        Event::Receive { .. } | Event::Step { .. } => 0,
    }
}

/// What a process might do next.
fn proposal(random: &mut Random, run: &Run, habits: &Habits) -> Option<Event> {
    let process = random.weighted(&habits.pace) as u8;
    let site = &run.sites[usize::from(process)];
    let size = run.sites.len();
    match random.weighted(&habits.actions) {
        0 => {
            let unsent: Vec<u8> = (0..size as u8).filter(|to| !site.sent.contains(to)).collect();
            (!unsent.is_empty()).then(|| Event::Send { from: process, to: random.pick(&unsent) })
        }
        1 => {
            let waiting = run.transit.iter().filter(|message| message.receiver == process && message.round == site.round);
            let senders: Vec<u8> = waiting.map(|message| message.sender).collect();
            (!senders.is_empty()).then(|| Event::Receive { receiver: process, sender: random.pick(&senders) })
        }
        2 => (site.sent.len() == size).then_some(Event::Step { process }),
        _ => site.sent.is_empty().then_some(Event::Broadcast { process }),
    }
}

/// What stands behind the accepted events: mostly an end record, or an event that is refused, or bytes that are.
fn tail(random: &mut Random, run: &Run) -> Vec<u8> {
    let size = run.sites.len();
    match random.below(20) {
        0..=6 => END.to_vec(),
        7..=13 => {
            let mut bytes = event(refused(random, run));
            // what stands behind a refused event must not count
            for _ in 0..random.below(3) {
                bytes.extend(event(any_event(random, size)));
            }
            bytes.extend(END);
            bytes
        }
        14 => Vec::new(),
        15 => {
            let mut bytes = event(any_event(random, size));
            bytes.truncate(random.below(bytes.len()));
            bytes
        }
        16 => record(random.byte(), &[0]),
        17 => {
            let tag = random.pick(&[0x10, 0x11, 0x12, 0x13, 0x7f]);
            record(tag, &vec![0; random.below(5)])
        }
        18 => opening(&values(random, size)),
        _ => {
            let behind = random.between(1, 4);
            [&END[..], &(0..behind).map(|_| random.pick(&[0, 1, 0x10, 0x7f])).collect::<Vec<u8>>()].concat()
        }
    }
}

/// An event with process numbers mostly below N, and sometimes just from it on, or any.
fn any_event(random: &mut Random, size: usize) -> Event {
    let one = |random: &mut Random| match random.below(12) {
        0 => size as u8,
        1 => random.byte(),
        _ => random.below(size) as u8,
    };
    let (a, b) = (one(random), one(random));
    match random.below(4) {
        0 => Event::Send { from: a, to: b },
        1 => Event::Receive { receiver: a, sender: b },
        2 => Event::Step { process: a },
        _ => Event::Broadcast { process: a },
    }
}

/// An event that the guide refuses, if one is found soon; with a number drawn first, so that those that are rarer come often enough.
fn refused(random: &mut Random, run: &Run) -> Event {
    let wanted = random.pick(&[2, 3, 4, 4, 4, 5, 6]);
    let mut found = any_event(random, run.sites.len());
    for _ in 0..60 {
        let event = any_event(random, run.sites.len());
        match run.number(event) {
            number if number == wanted => return event,
            0 => {}
            _ => found = event,
        }
    }
    found
}

/// The night with something wrong in its first record, or without it.
fn badly_opened(random: &mut Random, night: &Night) -> Vec<u8> {
    let whole = night.bytes();
    let first = opening(&night.values).len();
    match random.below(6) {
        // a wrong N, with the length that goes with it or without
        0 => {
            let size = random.pick(&[0, MOST_PROCESSES + 1, MOST_PROCESSES + 1, MOST_PROCESSES + 2, 255]);
            let mut bytes = opening(&values(random, size));
            bytes.extend(&whole[first..]);
            bytes
        }
        1 => with_byte(whole, 3, random.byte()),
        2 => with_byte(whole, random.between(1, 2), random.byte()),
        // an event first, an unknown tag first, or less than the opening
        3 => whole[first..].to_vec(),
        4 => with_byte(whole, 0, random.byte()),
        _ => whole[..random.below(first)].to_vec(),
    }
}

fn with_byte(mut bytes: Vec<u8>, at: usize, byte: u8) -> Vec<u8> {
    bytes[at] = byte;
    bytes
}

/// Bytes with no night behind them, most of them such as stand in traces.
fn noise(random: &mut Random) -> Vec<u8> {
    let length = random.below(60);
    let likely = [0, 0, 0, 1, 1, 2, 2, 5, 9, 0x10, 0x11, 0x12, 0x13, 0x7f];
    (0..length).map(|_| if random.one_in(8) { random.byte() } else { random.pick(&likely) }).collect()
}

/// Changes a byte, cuts the bytes short, doubles some, adds some, or takes some away.
fn damage(random: &mut Random, bytes: &mut Vec<u8>) {
    if bytes.is_empty() {
        bytes.push(random.byte());
        return;
    }
    let at = random.below(bytes.len());
    let upto = (at + random.between(1, 12)).min(bytes.len());
    match random.below(5) {
        0 => bytes[at] = if random.one_in(2) { random.byte() } else { bytes[at] ^ (1 << random.below(8)) },
        1 => bytes.truncate(at),
        2 => {
            let doubled = bytes[at..upto].to_vec();
            bytes.splice(at..at, doubled);
        }
        3 => {
            let added: Vec<u8> = (0..random.between(1, 5)).map(|_| random.byte()).collect();
            bytes.splice(at..at, added);
        }
        _ => drop(bytes.drain(at..upto)),
    }
}

/// The room for a report: mostly enough, and often at an edge.
fn room(random: &mut Random, size: usize) -> usize {
    match random.below(20) {
        0 => LEAST_ROOM - 1,
        1 => LEAST_ROOM + 1,
        2 => random.pick(&[0, 1, ROW * size - 1, ROW * size]),
        3 => random.between(LEAST_ROOM - 8, LEAST_ROOM + 8),
        4 | 5 => random.between(LEAST_ROOM, 1500),
        _ => LEAST_ROOM,
    }
}
