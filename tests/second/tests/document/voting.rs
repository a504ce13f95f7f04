//! The voting rule beside document 003.

use crate::helpers::state;
use second::voting::{next, Content};

fn content(value: u32, vote: Option<u32>) -> Content {
    Content { value, vote }
}

#[test]
fn the_odd_round() {
    let own = state(9, Some(8), Some(7));
    assert_eq!(next(1, own, &[content(3, None), content(5, None)]), state(3, Some(8), Some(7)));
    assert_eq!(next(3, own, &[content(5, Some(1)), content(5, None)]), state(5, Some(5), Some(7)));
}

#[test]
fn the_even_round() {
    let own = state(9, Some(8), Some(7));
    // No vote heard.
    assert_eq!(next(2, own, &[content(3, None), content(5, None)]), state(3, None, Some(7)));
    // Some vote heard: its value goes before a lesser value, and one message without a vote hinders the decision.
    assert_eq!(next(2, own, &[content(3, None), content(5, Some(6))]), state(6, None, Some(7)));
    // Several votes: the least of them and no decision.
    assert_eq!(next(4, own, &[content(3, Some(6)), content(5, Some(4))]), state(4, None, Some(7)));
    // All the same vote: a decision, over the older one.
    assert_eq!(next(4, own, &[content(3, Some(6)), content(5, Some(6))]), state(6, None, Some(6)));
    assert_eq!(next(2, own, &[]), state(9, None, Some(7)));
}
