use crate::error::{checked, Error, Result};
use crate::frame::Frame;
use crate::raw;
use crate::spot::Spot;
use std::cell::Cell;
use std::marker::PhantomData;
use std::sync::Arc;
use std::thread;
use std::time::Duration;

/// How often in a row `Full` is answered before it is believed: others may take what a cycle frees.
const PATIENCE: u32 = 8;

/// A thread's right to work on a heap. It may go to another thread, and is used by one at a time.
pub struct Mutator {
    spot: Arc<Spot>,
    _not_sync: PhantomData<Cell<()>>,
}

/// Goes out at the end of its scope, also when that is left by a panic.
struct Inside<'a>(&'a Spot);

impl Drop for Inside<'_> {
    fn drop(&mut self) {
        let _ = unsafe { raw::heap_end(self.0.handle()) };
    }
}

impl Mutator {
    pub(crate) fn new(spot: Arc<Spot>) -> Mutator {
        Mutator {
            spot,
            _not_sync: PhantomData,
        }
    }

    /// Comes in, works, and goes out. What the anchor leads to stays, and all else is let go.
    pub fn enter<T>(&mut self, work: impl for<'f> FnOnce(&mut Frame<'f>) -> T) -> Result<T> {
        let handle = self.spot.handle();
        checked(unsafe { raw::heap_begin(handle) })?;
        let inside = Inside(&self.spot);
        let done = work(&mut Frame::new(&self.spot));
        drop(inside);
        Ok(done)
    }
}

impl Drop for Mutator {
    fn drop(&mut self) {
        let _ = unsafe { raw::heap_leave(self.spot.handle()) };
    }
}

/// Tries again while no cell is free. It answers and sleeps between two tries.
pub(crate) fn patiently(
    handle: *mut raw::HeapMut,
    mut call: impl FnMut() -> Result<()>,
) -> Result<()> {
    let mut fulls = 0;
    loop {
        let said = call();
        match said {
            Err(Error::Wait) => {}
            Err(Error::Full) if fulls + 1 < PATIENCE => fulls += 1,
            _ => return said,
        }
        let _ = unsafe { raw::heap_answer(handle) };
        thread::sleep(Duration::from_micros(50));
    }
}
