//! Work on many inputs at once: in as many parts as there are processors, each in a thread.

use std::num::NonZero;
use std::thread;

/// The results of the parts, in their order.
pub fn in_parts<T: Sync, R: Send>(inputs: &[T], work: impl Fn(&[T]) -> R + Sync) -> Vec<R> {
    let parts = thread::available_parallelism().map_or(1, NonZero::get);
    let part = inputs.len().div_ceil(parts).max(1);
    thread::scope(|scope| {
        let work = &work;
        let threads: Vec<_> = inputs
            .chunks(part)
            .map(|part| scope.spawn(move || work(part)))
            .collect();
        let results = threads.into_iter().map(|thread| thread.join());
        results.map(|result| result.expect("no panic")).collect()
    })
}
