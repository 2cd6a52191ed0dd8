//! How long a work takes.

use std::alloc::{GlobalAlloc, Layout, System};
use std::hint::black_box;
use std::time::{Duration, Instant};

pub const ROUNDS: usize = 40;
pub const ROUND: Duration = Duration::from_millis(1);

/// Does one thing so many times.
pub type Work = Box<dyn FnMut(u64)>;

fn nanoseconds(times: u64, work: &mut Work) -> f64 {
    let start = Instant::now();
    work(times);
    start.elapsed().as_nanos() as f64 / times as f64
}

/// The best of several rounds for each of the works, taken in turn so that all meet the same machine.
pub fn best<const N: usize>(works: [Work; N]) -> [f64; N] {
    best_of(works.into()).try_into().unwrap()
}

/// How often a work is done in a round, found by doing it for at least one.
fn in_a_round(work: &mut Work) -> u64 {
    let round = ROUND.as_nanos() as f64;
    let mut times = 1;
    loop {
        let once = nanoseconds(times, work);
        if times as f64 * once >= round {
            return (round / once) as u64 + 1;
        }
        times *= 2;
    }
}

/// The same of as many works as there are.
pub fn best_of(mut works: Vec<Work>) -> Vec<f64> {
    let times: Vec<u64> = works.iter_mut().map(in_a_round).collect();
    let mut best = vec![f64::INFINITY; works.len()];
    for _ in 0..ROUNDS {
        for ((work, times), best) in works.iter_mut().zip(&times).zip(&mut best) {
            *best = best.min(nanoseconds(*times, work));
        }
    }
    best
}

/// Repeats one call, which must answer that number each time. All that is lent to it is hidden from the
/// compiler afresh at each call: no number and no length is known, and everything is read from memory.
pub fn repeated<T: 'static>(number: u8, mut lent: T, mut call: impl FnMut(&mut T) -> u8 + 'static) -> Work {
    Box::new(move |times| {
        for _ in 0..times {
            assert_eq!(black_box(call(black_box(&mut lent))), number);
        }
    })
}

/// Begins every buffer at a cache line, so that nothing depends on where it happens to fall: a store
/// across two pages costs more than the shortest calls.
struct CacheLines;

#[global_allocator]
static CACHE_LINES: CacheLines = CacheLines;

fn at_a_line(layout: Layout) -> Layout {
    layout.align_to(64).unwrap_or(layout)
}

// Sound: the system's own allocator, always asked in the same way.
unsafe impl GlobalAlloc for CacheLines {
    unsafe fn alloc(&self, layout: Layout) -> *mut u8 {
        System.alloc(at_a_line(layout))
    }

    unsafe fn dealloc(&self, pointer: *mut u8, layout: Layout) {
        System.dealloc(pointer, at_a_line(layout));
    }
}
