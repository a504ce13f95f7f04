//! The limits in document 01's own numbers. The looks that reach each limit know them by these names alone.

use second::machine::{LAST_ROUND, MOST_EVENTS, MOST_PROCESSES, REFUSED_LEAD};
use second::sheet::{LEAST_ROOM, ROW};

#[test]
fn each_limit_has_its_number() {
    assert_eq!((MOST_PROCESSES, REFUSED_LEAD, LAST_ROUND, MOST_EVENTS), (16, 8, 65_535, 1_000_000));
    assert_eq!((LEAST_ROOM, ROW), (384, 24));
}
