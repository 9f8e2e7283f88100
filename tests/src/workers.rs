//! The same work on every core.

use std::num::NonZero;
use std::thread::{self, ScopedJoinHandle};

/// What each worker comes to; one works alone where the number of cores is not known.
pub fn together<T: Send>(work: impl Fn() -> T + Sync) -> Vec<T> {
    let cores = thread::available_parallelism().map_or(1, NonZero::get);
    thread::scope(|scope| {
        let workers: Vec<_> = (0..cores).map(|_| scope.spawn(&work)).collect();
        let results = workers.into_iter().map(ScopedJoinHandle::join);
        results
            .map(|result| result.expect("no worker fails"))
            .collect()
    })
}
