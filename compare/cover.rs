//! Counters that compare/coverage puts into the oracle: one for each place, two for each operand of && and ||.
use std::sync::atomic::{AtomicBool, AtomicU64, Ordering::Relaxed};

static HITS: [AtomicU64; 2048] = [const { AtomicU64::new(0) }; 2048];
static PAUSED: AtomicBool = AtomicBool::new(false);

/// Whether nothing is counted for a while.
pub fn pause(paused: bool) {
    PAUSED.store(paused, Relaxed);
}

pub fn hit(n: usize) {
    if !PAUSED.load(Relaxed) {
        HITS[n].fetch_add(1, Relaxed);
    }
}

/// Counts whether an operand is true or false.
pub fn operand(n: usize, value: bool) -> bool {
    hit(n + usize::from(!value));
    value
}

pub fn write() {
    let lines: Vec<String> = HITS.iter().map(|h| h.load(Relaxed).to_string()).collect();
    std::fs::write("target/coverage/hits", lines.join("\n")).expect("target/coverage/hits");
}
