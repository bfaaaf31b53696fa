//! A part's items shared out among threads, with progress on standard error.

use std::io::{stderr, IsTerminal, Write};
use std::ops::Range;
use std::sync::atomic::{AtomicBool, AtomicU64, Ordering};
use std::sync::Mutex;
use std::thread;
use std::time::{Duration, Instant};

use crate::tally::Tally;

/// Items that a thread takes at a time.
const BLOCK: u64 = 1 << 14;

/// What is done with one item.
pub type Check = dyn Fn(u64, &mut Tally) + Sync;

/// A comparison over items that are counted from 0.
pub struct Part {
    pub name: &'static str,
    pub what: String,
    pub items: u64,
    pub check: Box<Check>,
}

/// Compares every item, and gives what was found and the seconds that it took.
pub fn run(part: &Part, threads: usize) -> (Tally, f64) {
    let began = Instant::now();
    let (next, over) = (AtomicU64::new(0), AtomicBool::new(false));
    let total = Mutex::new(Tally::default());
    thread::scope(|scope| {
        let workers: Vec<_> =
            (0..threads).map(|_| scope.spawn(|| take(part, &next, &total))).collect();
        scope.spawn(|| show(part, &next, &over, began));
        let ended: Vec<_> = workers.into_iter().map(|worker| worker.join()).collect();
        // Also where one panicked: else the progress would be shown for ever.
        over.store(true, Ordering::Relaxed);
        ended.into_iter().for_each(|end| end.expect("a comparison panicked"));
    });
    (total.into_inner().expect("no thread has failed"), began.elapsed().as_secs_f64())
}

/// Blocks of items, as long as there are any.
fn take(part: &Part, next: &AtomicU64, total: &Mutex<Tally>) {
    let mut tally = Tally::default();
    loop {
        let start = next.fetch_add(BLOCK, Ordering::Relaxed);
        if start >= part.items {
            break;
        }
        let block: Range<u64> = start..(start + BLOCK).min(part.items);
        block.for_each(|item| (part.check)(item, &mut tally));
    }
    total.lock().expect("no thread has failed").add(tally);
}

/// A line that says how far the part is, once a second on a terminal and every ten seconds elsewhere.
fn show(part: &Part, next: &AtomicU64, over: &AtomicBool, began: Instant) {
    let terminal = stderr().is_terminal();
    let pause = if terminal { 1.0 } else { 10.0 };
    let mut shown = 0.0;
    while !over.load(Ordering::Relaxed) {
        thread::sleep(Duration::from_millis(20));
        let seconds = began.elapsed().as_secs_f64();
        if seconds - shown < pause {
            continue;
        }
        shown = seconds;
        let done = next.load(Ordering::Relaxed).min(part.items);
        let share = done as f64 / part.items.max(1) as f64;
        let left = if share > 0.0 { seconds / share - seconds } else { 0.0 };
        let (start, end) = if terminal { ("\r", "\x1b[K") } else { ("", "\n") };
        eprint!("{start}{}: {:.0} %, {left:.0} s left{end}", part.name, 100.0 * share);
        stderr().flush().ok();
    }
    if terminal {
        eprint!("\r\x1b[K");
    }
}
