//! Shares cases among threads. The cases are handed out in order, and where some fail, the first of them is told, whatever the threads did.

use crate::proved::Proved;
use std::sync::atomic::{AtomicBool, AtomicU64, Ordering};
use std::sync::Mutex;
use std::time::Instant;

/// A case that fails, and why.
pub struct Failure {
    pub case: u64,
    pub why: String,
}

/// Works on the cases from 0 on, at least `count` of them, and on until the time `until`, if there is one; `add` takes what each comes to. Gives how
/// many cases there were, or the first that failed.
pub fn share<T>(
    count: u64,
    until: Option<Instant>,
    work: impl Fn(&mut Proved, u64) -> Result<T, String> + Sync,
    add: impl FnMut(T) + Send,
) -> Result<u64, Failure> {
    let (next, stop) = (AtomicU64::new(0), AtomicBool::new(false));
    let (add, first) = (Mutex::new(add), Mutex::new(None::<Failure>));
    let one_thread = || {
        let mut proved = Proved::new();
        while !stop.load(Ordering::SeqCst) {
            let case = next.fetch_add(1, Ordering::SeqCst);
            if case >= count && until.is_none_or(|until| Instant::now() >= until) {
                next.fetch_sub(1, Ordering::SeqCst);
                break;
            }
            match work(&mut proved, case) {
                Ok(found) => (add.lock().expect("no thread has failed"))(found),
                Err(why) => {
                    stop.store(true, Ordering::SeqCst);
                    let mut first = first.lock().expect("no thread has failed");
                    if first.as_ref().is_none_or(|other| case < other.case) {
                        *first = Some(Failure { case, why });
                    }
                }
            }
        }
    };
    std::thread::scope(|scope| {
        for _ in 0..std::thread::available_parallelism().map_or(1, |many| many.get()) {
            scope.spawn(one_thread);
        }
    });
    match first.into_inner().expect("all threads have ended") {
        Some(failure) => Err(failure),
        None => Ok(next.load(Ordering::SeqCst)),
    }
}
