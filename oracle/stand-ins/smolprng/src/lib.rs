//! Stand-in for `smolprng`: normals are not made but read, in order, from numbers that were lent.
//!
//! There are two queues. A generator made from a seed reads the start's numbers, the default
//! generator those of the rounding: the six files make the one with a seed for starts, and the
//! other for rounding. Reading past the end of a queue is an error, never a made-up number.

use std::cell::RefCell;
use std::collections::VecDeque;

#[derive(Clone, Copy)]
enum Queue {
    Start,
    Rounding,
}

thread_local! {
    static START: RefCell<VecDeque<f64>> = const { RefCell::new(VecDeque::new()) };
    static ROUNDING: RefCell<VecDeque<f64>> = const { RefCell::new(VecDeque::new()) };
}

/// Lends this thread the numbers of both queues, in place of what was left in them.
pub fn lend(start: &[f64], rounding: &[f64]) {
    START.with(|queue| *queue.borrow_mut() = start.iter().copied().collect());
    ROUNDING.with(|queue| *queue.borrow_mut() = rounding.iter().copied().collect());
}

/// How many numbers of each queue have not been read.
pub fn unread() -> (usize, usize) {
    let start = START.with(|queue| queue.borrow().len());
    let rounding = ROUNDING.with(|queue| queue.borrow().len());
    (start, rounding)
}

/// A generator: nothing but the name of its queue.
pub struct JsfLarge {
    queue: Queue,
}

impl Default for JsfLarge {
    fn default() -> Self {
        Self { queue: Queue::Rounding }
    }
}

impl From<u64> for JsfLarge {
    fn from(_: u64) -> Self {
        Self { queue: Queue::Start }
    }
}

pub struct PRNG<G> {
    pub generator: G,
}

impl PRNG<JsfLarge> {
    /// The next number of the generator's queue.
    pub fn normal(&mut self) -> f64 {
        let next = match self.generator.queue {
            Queue::Start => START.with(|queue| queue.borrow_mut().pop_front()),
            Queue::Rounding => ROUNDING.with(|queue| queue.borrow_mut().pop_front()),
        };
        match (next, self.generator.queue) {
            (Some(number), _) => number,
            (None, Queue::Start) => panic!("read past the end of the start's numbers"),
            (None, Queue::Rounding) => panic!("read past the end of the rounding draws"),
        }
    }
}
