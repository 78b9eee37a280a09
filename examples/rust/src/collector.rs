use crate::error::{checked, Result};
use crate::heap::Heap;
use crate::raw;
use std::sync::atomic::{AtomicBool, Ordering::SeqCst};
use std::sync::Arc;
use std::thread::{self, JoinHandle};

/// How a step ended.
#[derive(Clone, Copy, Debug, PartialEq, Eq)]
pub enum Step {
    /// There is more to do.
    More,
    /// A mutator has to answer first. Those that are parked were answered for.
    Asks,
    /// A cycle ended just now.
    Ended,
}

/// What the collector tells of its work since the opening.
#[derive(Clone, Copy, Debug, PartialEq, Eq)]
pub struct Stats {
    /// Cycles that ended.
    pub cycles: u32,
    /// 0 idle, 1 sync1, 2 clear, 3 sync2, 4 trace, 5 sweep.
    pub stage: u32,
    /// The mutator that has to answer before the next step, by its number.
    pub waits_for: Option<u32>,
    /// Cells that were freed.
    pub freed: u64,
    /// Cells that are thought to be free now.
    pub free_about: u64,
}

/// Makes the cycles of a heap, by steps or in a thread. It is on duty, so makers wait for it.
pub struct Collector {
    heap: Heap,
}

impl Collector {
    /// Goes on duty.
    pub fn new(mut heap: Heap) -> Result<Collector> {
        checked(unsafe { raw::heap_duty(&mut heap.handle, 1) })?;
        Ok(Collector { heap })
    }

    /// Makes at most so many moves.
    pub fn step(&mut self, moves: u32) -> Result<Step> {
        let mut how = 0;
        checked(unsafe { raw::heap_step(&mut self.heap.handle, moves, &mut how) })?;
        match how {
            raw::ENDED => Ok(Step::Ended),
            raw::ASKS => {
                for spot in &self.heap.spots {
                    spot.serve()?;
                }
                Ok(Step::Asks)
            }
            _ => Ok(Step::More),
        }
    }

    /// What it has done.
    pub fn look(&mut self) -> Result<Stats> {
        let mut s = raw::HeapStats::default();
        checked(unsafe { raw::heap_look(&mut self.heap.handle, &mut s) })?;
        Ok(Stats {
            cycles: s.cycles,
            stage: s.stage,
            waits_for: (s.asks == 1).then_some(s.heard),
            freed: s.freed,
            free_about: s.free_about,
        })
    }

    /// Makes cycle after cycle in a thread of its own.
    pub fn run(mut self) -> Running {
        let over = Arc::new(AtomicBool::new(false));
        let asked = Arc::clone(&over);
        let thread = thread::spawn(move || {
            while !asked.load(SeqCst) {
                match self.step(500) {
                    Ok(Step::Asks) => thread::yield_now(),
                    Ok(_) => {}
                    Err(_) => break, // all cycles were made
                }
            }
            self
        });
        Running {
            over,
            thread: Some(thread),
        }
    }

    /// Goes off duty, and gives the heap back.
    pub fn into_heap(mut self) -> Result<Heap> {
        checked(unsafe { raw::heap_duty(&mut self.heap.handle, 0) })?;
        Ok(self.heap)
    }
}

/// A collector in a thread of its own, which ends when this is dropped.
pub struct Running {
    over: Arc<AtomicBool>,
    thread: Option<JoinHandle<Collector>>,
}

impl Running {
    /// Ends the thread, and gives the collector back.
    pub fn stop(mut self) -> Collector {
        self.end().expect("the collector's thread")
    }

    fn end(&mut self) -> Option<Collector> {
        self.over.store(true, SeqCst);
        self.thread.take()?.join().ok()
    }
}

impl Drop for Running {
    fn drop(&mut self) {
        drop(self.end());
    }
}
