//! The numbers of document 003's own experiments: how many choices of heard sets have no split, and how many states of UniformVoting are reached under
//! them in lock step, with the second replay's rule. Then the proved rule is asked what each such state becomes, for every heard set.

use crate::lockstep;
use crate::records::Night;
use crate::share::share;
use second::machine::Event;
use second::sheet;
use second::voting::{next, Content, State};
use std::collections::{BTreeMap, VecDeque};

/// A choice of heard sets, one for each process, as masks.
type Heard = Vec<u32>;

/// A state of the whole in 003: the phase, which is 0 before an odd round and 1 before an even one, and what each process holds.
type Whole = (u32, Vec<State>);

/// The opening values and the heard sets, round by round, that lead to a state.
#[derive(Clone)]
struct Path {
    values: Vec<u32>,
    heard: Vec<Heard>,
}

fn members(mask: u32) -> Vec<u8> {
    (0..32).filter(|process| mask >> process & 1 == 1).collect()
}

/// All lists of so many items.
fn lists<T: Clone>(items: &[T], length: usize) -> Vec<Vec<T>> {
    (0..length).fold(vec![Vec::new()], |shorter, _| {
        shorter.iter().flat_map(|list| items.iter().map(move |item| [list.clone(), vec![item.clone()]].concat())).collect()
    })
}

/// 003: the heard sets of any two processes have a process in common.
fn without_a_split(size: usize) -> Vec<Heard> {
    let sets: Vec<u32> = (0..1 << size).collect();
    let mut choices = lists(&sets, size);
    choices.retain(|heard| heard.iter().all(|one| heard.iter().all(|other| one & other != 0)));
    choices
}

/// What a process holds after a round in which it hears this set.
fn after(whole: &Whole, process: usize, heard: u32) -> State {
    let (phase, states) = whole;
    let content = |sender: u8| Content { value: states[usize::from(sender)].value, vote: states[usize::from(sender)].vote };
    let heard: Vec<Content> = members(heard).into_iter().map(content).collect();
    next(phase + 1, states[process], &heard)
}

/// The states reached from openings with these values, each with a shortest path that leads to it.
fn reached(values: &[u32], size: usize, choices: &[Heard]) -> BTreeMap<Whole, Path> {
    let undecided = |value: &u32| State { value: *value, vote: None, decision: None };
    let opened =
        lists(values, size).into_iter().map(|values| ((0, values.iter().map(undecided).collect()), Path { values, heard: vec![] }));
    let mut found: BTreeMap<Whole, Path> = opened.collect();
    let mut open: VecDeque<Whole> = found.keys().cloned().collect();
    while let Some(whole) = open.pop_front() {
        // what each process becomes for each heard set, so that a choice is looked up and not worked out
        let becomes: Vec<Vec<State>> = (0..size).map(|process| (0..1 << size).map(|set| after(&whole, process, set)).collect()).collect();
        let path = found[&whole].clone();
        for heard in choices {
            let later = (1 - whole.0, (0..size).map(|process| becomes[process][heard[process] as usize]).collect::<Vec<State>>());
            if !found.contains_key(&later) {
                let heard = [&path.heard[..], std::slice::from_ref(heard)].concat();
                found.insert(later.clone(), Path { values: path.values.clone(), heard });
                open.push_back(later);
            }
        }
    }
    found
}

fn night(path: &Path) -> Night {
    let events = |heard: &Heard| lockstep::round(heard.len(), |process| members(heard[usize::from(process)]));
    Night::ended(path.values.clone(), path.heard.iter().flat_map(events).collect::<Vec<Event>>())
}

/// Asks the proved rule what each state becomes where all hear the same set, for every set, the empty one too.
fn asked(size: usize, found: &BTreeMap<Whole, Path>) -> Result<u64, String> {
    let states: Vec<(&Whole, &Path)> = found.iter().collect();
    let sets = 1u64 << size;
    let compared = share(
        states.len() as u64 * sets,
        None,
        |proved, case| {
            let ((whole, path), set) = (states[(case / sets) as usize], (case % sets) as u32);
            let mut path = path.clone();
            path.heard.push(vec![set; size]);
            let wanted: Vec<String> = (0..size).map(|process| sheet::v_line(process, after(whole, process, set))).collect();
            let sheet = proved.sheet(&night(&path).bytes())?;
            let lines: Vec<&str> = sheet.lines().filter(|line| line.starts_with('v')).collect();
            if lines != wanted {
                return Err(format!("{whole:?} becomes {lines:?} by {set:04x}, the second replay has {wanted:?}"));
            }
            Ok(())
        },
        drop,
    );
    compared.map_err(|failure| failure.why)
}

fn is(what: &str, found: usize, said: usize) -> bool {
    println!("{what}: {found}{}", if found == said { String::new() } else { format!(", and document 003 says {said}") });
    found == said
}

pub fn paper() -> bool {
    let mut right = true;
    for (size, states) in [(3, 122), (4, 332)] {
        let choices = without_a_split(size);
        if size == 3 {
            right &= is("choices of heard sets without a split, of three processes", choices.len(), 175);
        }
        let found = reached(&[0, 1, 2], size, &choices);
        right &= is(&format!("states of {size} processes with three values"), found.len(), states);
        match asked(size, &found) {
            Ok(count) => println!("the proved rule gives the same successors: {count} questions"),
            Err(why) => {
                println!("{why}");
                right = false;
            }
        }
    }
    right
}
