//! Times calls that are short for the clock, many of them at once.

use std::time::{Duration, Instant};

use crate::PASSES;

/// Calls that are timed at once take so long at least.
const BLOCK: Duration = Duration::from_millis(4);

/// A call, and how many of it are timed at once.
struct Block<'a> {
    calls: u32,
    call: &'a mut dyn FnMut(),
}

impl<'a> Block<'a> {
    /// Doubles the calls until they take long enough.
    fn new(call: &'a mut dyn FnMut()) -> Self {
        let mut block = Block { calls: 1, call };
        while block.time() < BLOCK {
            block.calls *= 2;
        }
        block
    }

    fn time(&mut self) -> Duration {
        let start = Instant::now();
        (0..self.calls).for_each(|_| (self.call)());
        start.elapsed()
    }

    /// Microseconds for a call.
    fn each(&mut self) -> f64 {
        1e6 * self.time().as_secs_f64() / f64::from(self.calls)
    }
}

/// The least microseconds for each of some calls, which take turns.
pub fn least<const COUNT: usize>(calls: [&mut dyn FnMut(); COUNT]) -> [f64; COUNT] {
    let mut blocks = calls.map(Block::new);
    let mut least = [f64::MAX; COUNT];
    for _ in 0..PASSES {
        for (least, block) in least.iter_mut().zip(&mut blocks) {
            *least = least.min(block.each());
        }
    }
    least
}
