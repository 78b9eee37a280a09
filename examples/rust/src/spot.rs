use crate::error::{checked, Result};
use crate::raw;
use std::cell::UnsafeCell;
use std::sync::atomic::{AtomicU32, Ordering::SeqCst};
use std::thread;

const OWNED: u32 = 0;
const PARKED: u32 = 1;
const ANSWERED: u32 = 2;

/// A mutator's handle, and the word that says who has it: its thread, or, while that blocks, who
/// makes the steps.
pub(crate) struct Spot {
    handle: UnsafeCell<raw::HeapMut>,
    who: AtomicU32,
}

// One thread at a time reaches the handle: that of the `Mutator`, which is not `Sync`, or, after an
// exchange of `who`, the collector's.
unsafe impl Send for Spot {}
unsafe impl Sync for Spot {}

impl Spot {
    /// Of a handle that was seated just now.
    pub fn new(handle: raw::HeapMut) -> Spot {
        Spot {
            handle: UnsafeCell::new(handle),
            who: AtomicU32::new(OWNED),
        }
    }

    /// The handle, for its own thread while it is not parked.
    pub fn handle(&self) -> *mut raw::HeapMut {
        self.handle.get()
    }

    /// From now on others may answer.
    pub fn park(&self) {
        self.who.store(PARKED, SeqCst);
    }

    /// Takes the handle back.
    pub fn unpark(&self) {
        while self
            .who
            .compare_exchange(PARKED, OWNED, SeqCst, SeqCst)
            .is_err()
        {
            thread::yield_now();
        }
    }

    /// Answers, if it is parked.
    pub fn serve(&self) -> Result<()> {
        if self
            .who
            .compare_exchange(PARKED, ANSWERED, SeqCst, SeqCst)
            .is_err()
        {
            return Ok(());
        }
        let code = unsafe { raw::heap_answer(self.handle.get()) };
        self.who.store(PARKED, SeqCst);
        checked(code)
    }
}
