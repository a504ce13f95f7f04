//! The limits of document 01, each reached by construction: the number that must come is said here too, beside what the two replays give.

use crate::compare::both;
use crate::lockstep;
use crate::nights::Case;
use crate::records::{opening, record, Night};
use crate::share::share;
use second::machine::{Event, LAST_ROUND, MOST_EVENTS, MOST_PROCESSES, REFUSED_LEAD};
use second::sheet::LEAST_ROOM;

/// A case with its name and the number that it must come to.
struct Limit {
    name: String,
    case: Case,
    number: u8,
}

fn limit(name: impl Into<String>, trace: Vec<u8>, number: u8) -> Limit {
    Limit { name: name.into(), case: Case { trace, room: LEAST_ROOM }, number }
}

/// So many processes, whose values are their numbers.
fn plain(size: usize) -> Vec<u32> {
    (0..size as u32).collect()
}

/// The opening, these events, and the end record.
fn night(size: usize, events: Vec<Event>) -> Vec<u8> {
    Night::ended(plain(size), events).bytes()
}

fn with(mut events: Vec<Event>, more: &[Event]) -> Vec<Event> {
    events.extend(more);
    events
}

const SEND: Event = Event::Send { from: 0, to: 1 };
const STEP: Event = Event::Step { process: 0 };
const BROADCAST: Event = Event::Broadcast { process: 0 };

/// Process 0 of so many finishes rounds alone.
fn alone_ahead(rounds: usize) -> Vec<Event> {
    [BROADCAST, STEP].repeat(rounds)
}

fn last_round() -> Vec<Limit> {
    let hears = |heard: usize| lockstep::round(1, |_| vec![0; heard]);
    let almost = |heard: usize| hears(heard).repeat(LAST_ROUND as usize - 1);
    vec![
        limit("alone, at the last round", night(1, almost(0)), 0),
        limit("alone, all is done at the last round but the step", night(1, with(almost(0), &[BROADCAST])), 0),
        limit("alone, a step at the last round", night(1, with(almost(0), &[BROADCAST, STEP])), 7),
        limit("alone, a step at the last round before sending", night(1, with(almost(0), &[STEP])), 6),
        limit("alone and hearing itself, a step at the last round", night(1, with(almost(1), &hears(1))), 7),
    ]
}

/// Nights of exactly so many events, by sends, receives and steps of three processes.
fn of_three(events: usize) -> Vec<Event> {
    let round = lockstep::round(3, |_| vec![0, 1, 2]);
    let single = |one: Event| match one {
        Event::Broadcast { process } => (0..3).map(|to| Event::Send { from: process, to }).collect(),
        other => vec![other],
    };
    round.into_iter().flat_map(single).cycle().take(events).collect()
}

/// A night of exactly the most events, by the most processes, which hear nobody: whole rounds, and then the broadcasts of the processes below the one
/// that is given too.
fn of_most() -> (Vec<Event>, u8) {
    let round = lockstep::round(MOST_PROCESSES, |_| Vec::new());
    let (in_a_round, in_all) = (MOST_PROCESSES * (MOST_PROCESSES + 1), MOST_EVENTS as usize);
    let next = (in_all % in_a_round / MOST_PROCESSES) as u8;
    let broadcasts: Vec<Event> = (0..next).map(|process| Event::Broadcast { process }).collect();
    (with(round.repeat(in_all / in_a_round), &broadcasts), next)
}

fn last_event() -> Vec<Limit> {
    // three processes have 21 events a round; one event before the last all are at the beginning of a round
    let (all_but_one, receive) = (of_three(MOST_EVENTS as usize - 1), Event::Receive { receiver: 0, sender: 0 });
    let full = with(all_but_one.clone(), &[SEND]);
    let nobody = Event::Step { process: 3 };
    let (of_most, next) = of_most();
    let one_more = with(of_most.clone(), &[Event::Broadcast { process: next }]);
    vec![
        limit("one event less than the most", night(3, all_but_one.clone()), 0),
        limit("a broadcast that would pass the most events", night(3, with(all_but_one.clone(), &[BROADCAST])), 8),
        limit("a broadcast that would pass the most events, of nobody", night(3, with(all_but_one, &[Event::Broadcast { process: 3 }])), 2),
        limit("the most events", night(3, full.clone()), 0),
        limit("the most events and a send that was sent", night(3, with(full.clone(), &[SEND])), 8),
        limit("the most events and a receive", night(3, with(full.clone(), &[receive])), 8),
        limit("the most events and a step", night(3, with(full.clone(), &[STEP])), 8),
        limit("the most events and a step of nobody", night(3, with(full, &[nobody])), 2),
        limit("the most events of the most processes", night(MOST_PROCESSES, of_most), 0),
        limit("the most events of the most processes and a broadcast", night(MOST_PROCESSES, one_more), 8),
    ]
}

fn leads() -> Vec<Limit> {
    let to_last = |size: usize| Event::Send { from: 0, to: size as u8 - 1 };
    let (longest, too_long) = (alone_ahead(REFUSED_LEAD as usize - 1), alone_ahead(REFUSED_LEAD as usize));
    let too_far = |events: &[Event]| with(too_long.clone(), events);
    let mut limits = Vec::new();
    for size in [2, 3, MOST_PROCESSES] {
        limits.push(limit(format!("the longest lead among {size}"), night(size, with(longest.clone(), &[to_last(size)])), 0));
        limits.push(limit(format!("the refused lead among {size}"), night(size, too_far(&[to_last(size)])), 4));
        limits.push(limit(format!("a broadcast at the refused lead among {size}"), night(size, too_far(&[BROADCAST])), 4));
        let own = Event::Send { from: 0, to: 0 };
        limits.push(limit(format!("to itself at the refused lead among {size}"), night(size, too_far(&[own])), 0));
        limits.push(limit(format!("a broadcast after that among {size}"), night(size, too_far(&[own, BROADCAST])), 3));
        let behind: Vec<Event> = (0..size as u8).map(|to| Event::Send { from: 1, to }).collect();
        limits.push(limit(format!("late by the refused lead among {size}"), night(size, too_far(&behind)), 0));
    }
    // all rounds of a window, waiting at process 1, which then takes them one after the other
    let mut window = with(longest, &[BROADCAST]);
    for _ in 0..REFUSED_LEAD {
        window.extend([Event::Broadcast { process: 1 }, Event::Receive { receiver: 1, sender: 0 }, Event::Step { process: 1 }]);
    }
    limits.push(limit("a full window, taken", night(2, window.clone()), 0));
    limits.push(limit("a full window, and one more", night(2, with(window, &[Event::Receive { receiver: 1, sender: 0 }])), 5));
    limits
}

fn sizes() -> Vec<Limit> {
    let mut limits = Vec::new();
    for size in 0..=255usize {
        let (whole, number) = (night(size, vec![]), if (1..=MOST_PROCESSES).contains(&size) { 0 } else { 1 });
        let last = opening(&plain(size)).len() - 1;
        limits.push(limit(format!("an opening of {size}, without its last byte"), whole[..last].to_vec(), 9));
        limits.push(limit(format!("an opening of {size}"), whole, number));
    }
    for size in 1..=MOST_PROCESSES as u8 {
        let (last, none) = (size - 1, size);
        let both_ways =
            |p: u8, q: u8| [Event::Send { from: p, to: q }, Event::Send { from: q, to: p }, Event::Receive { receiver: p, sender: q }];
        for one in both_ways(last, none).into_iter().chain([Event::Step { process: none }, Event::Broadcast { process: none }]) {
            limits.push(limit(format!("{one:?} among {size}"), night(size.into(), vec![one]), 2));
        }
        limits.push(limit(format!("the last of {size} to itself"), night(size.into(), vec![Event::Send { from: last, to: last }]), 0));
    }
    limits
}

/// The six tags with bodies of several lengths, and all others with one, each first, later, and behind the end record.
fn records() -> Vec<Limit> {
    let mut limits = Vec::new();
    for tag in 0..=255u8 {
        let known = matches!(tag, 0x01 | 0x10..=0x13 | 0x7f);
        for length in if known { 0..=6 } else { 1..=1 } {
            let bytes = record(tag, &vec![0; length]);
            let first = match (tag, length) {
                (0x01, 1) => 1,
                (0x01, _) => 11,
                _ if known => 12,
                _ => 10,
            };
            let later = match (tag, length) {
                (0x01, _) => 12,
                (0x10, 2) | (0x13, 1) => 9,
                (0x11, 2) => 5,
                (0x12, 1) => 6,
                (0x7f, 0) => 0,
                _ if known => 11,
                _ => 10,
            };
            limits.push(limit(format!("tag {tag:#04x}, length {length}, first"), bytes.clone(), first));
            limits.push(limit(format!("tag {tag:#04x}, length {length}, later"), [opening(&[7, 4]), bytes.clone()].concat(), later));
            limits.push(limit(format!("tag {tag:#04x}, length {length}, behind the end"), [night(2, vec![]), bytes].concat(), 13));
        }
    }
    limits
}

/// Every cut of a short night.
fn cuts() -> Vec<Limit> {
    let whole = night(3, with(lockstep::round(3, |_| vec![0, 2]), &[SEND]));
    let cut = |upto: usize| limit(format!("a night of {} bytes, {upto} of them", whole.len()), whole[..upto].to_vec(), 9);
    (0..whole.len()).map(cut).chain([limit("the night itself", whole.clone(), 0)]).collect()
}

/// The room of a report, byte by byte around what it must be.
fn rooms() -> Vec<Limit> {
    let trace = night(MOST_PROCESSES, vec![BROADCAST]);
    let at =
        |room: usize, number: u8| Limit { name: format!("a report of {room} bytes"), case: Case { trace: trace.clone(), room }, number };
    let (too_little, enough) = (LEAST_ROOM - 34..LEAST_ROOM, LEAST_ROOM..LEAST_ROOM + 36);
    too_little.map(|room| at(room, 14)).chain(enough.map(|room| at(room, 0))).chain([at(0, 14), at(1 << 20, 0)]).collect()
}

/// Whether each limit comes to its number in both replays.
pub fn limits() -> bool {
    let limits = [last_event(), last_round(), leads(), sizes(), records(), cuts(), rooms()].into_iter().flatten().collect::<Vec<Limit>>();
    let compared = share(
        limits.len() as u64,
        None,
        |proved, at| {
            let limit = &limits[at as usize];
            let agreed = both(proved, &limit.case)?;
            if agreed.call != limit.number {
                return Err(format!("both replays give {}, and not {}", agreed.call, limit.number));
            }
            Ok(())
        },
        drop,
    );
    match &compared {
        Ok(count) => println!("{count} traces at the limits come to their numbers, in both replays"),
        Err(failure) => println!("{}: {}", limits[failure.case as usize].name, failure.why),
    }
    compared.is_ok()
}
