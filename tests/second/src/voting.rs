//! The voting rule: UniformVoting, Algorithm 1 of document 003, with the completions of document 01.
//!
//! In 003 the value is x, the vote v and the decision d; Null is `None` here.

/// What a message carries for the vote. 01: "Messages carry value and vote."
///
/// Line 8 of 003 sends the value alone in an odd round; the vote goes along here and no odd round reads it.
#[derive(Clone, Copy, Debug, PartialEq, Eq, PartialOrd, Ord)]
pub struct Content {
    pub value: u32,
    pub vote: Option<u32>,
}

/// What a process holds for the vote.
#[derive(Clone, Copy, Debug, PartialEq, Eq, PartialOrd, Ord, Hash)]
pub struct State {
    pub value: u32,
    pub vote: Option<u32>,
    pub decision: Option<u32>,
}

/// The next-state function T_p, for a round counted from 1.
///
/// 01: "'Heard' means the current heard set, which may lack the process itself", so the process's own state
/// is no message unless it stands in `heard`.
pub fn next(round: u32, own: State, heard: &[Content]) -> State {
    if round % 2 == 1 {
        odd(own, heard)
    } else {
        even(own, heard)
    }
}

/// Lines 10 to 12 of 003.
fn odd(own: State, heard: &[Content]) -> State {
    // 01: "heard set empty, nothing changes". Without this line "all values heard are equal" holds of nothing.
    if heard.is_empty() {
        return own;
    }
    let value = least_value(heard).unwrap_or(own.value);
    // All values heard are equal exactly when each of them is the least one.
    let all_equal = heard.iter().all(|message| message.value == value);
    let vote = if all_equal { Some(value) } else { own.vote };
    State { value, vote, decision: own.decision }
}

/// Lines 17 to 19 of 003. 01: "the vote becomes absent in any case".
fn even(own: State, heard: &[Content]) -> State {
    // 01: "Heard set empty: value and decision kept." Without this line "every message has a vote" holds of nothing.
    if heard.is_empty() {
        return State { vote: None, ..own };
    }
    // 01: "the value becomes the least vote heard (003 does not say which of several), else the least value heard".
    let least_vote = heard.iter().filter_map(|message| message.vote).min();
    let value = least_vote.or(least_value(heard)).unwrap_or(own.value);
    // 01: "the decision becomes that vote, even over an older decision; else it is kept".
    // With no vote heard there is no least vote, and a message without a vote is never equal to one.
    let all_equal = heard.iter().all(|message| message.vote.is_some() && message.vote == least_vote);
    let decision = if all_equal { least_vote } else { own.decision };
    State { value, vote: None, decision }
}

fn least_value(heard: &[Content]) -> Option<u32> {
    heard.iter().map(|message| message.value).min()
}
