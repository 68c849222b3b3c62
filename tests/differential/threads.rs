//! Work on every core.
use std::sync::atomic::{AtomicU64, Ordering};

/// Does so many pieces of work, numbered from 0, in batches; what each thread has found.
pub fn in_parallel<F: Default + Send>(count: u64, work: impl Fn(&mut F, u64) + Sync) -> Vec<F> {
    const BATCH: u64 = 500;
    let next = AtomicU64::new(0);
    let run = || {
        let mut found = F::default();
        loop {
            let from = next.fetch_add(BATCH, Ordering::Relaxed);
            if from >= count {
                return found;
            }
            for number in from..count.min(from + BATCH) {
                work(&mut found, number);
            }
        }
    };
    let threads = std::thread::available_parallelism().map_or(1, |n| n.get());
    std::thread::scope(|scope| {
        let running: Vec<_> = (0..threads).map(|_| scope.spawn(run)).collect();
        running.into_iter().map(|thread| thread.join().expect("a thread has ended early")).collect()
    })
}
