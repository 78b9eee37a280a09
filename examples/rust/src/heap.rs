use crate::error::{checked, Result};
use crate::mutator::Mutator;
use crate::raw;
use crate::spot::Spot;
use std::sync::Arc;

/// What a heap is opened with.
#[derive(Clone, Copy, Debug)]
pub struct Setting {
    /// 1 to 4,194,304.
    pub cells: u32,
    /// How many can be seated, 1 to 1,048,576.
    pub mutators: u32,
    /// Places of the mark stack, 1 to 1,048,576.
    pub stack: u32,
}

/// A heap that was opened, with the collector's handle. It is freed when its last handle has gone.
pub struct Heap {
    pub(crate) handle: raw::HeapCol,
    pub(crate) spots: Vec<Arc<Spot>>,
}

// A handle may go to another thread; it has no method by `&` that calls with it.
unsafe impl Send for Heap {}

impl Heap {
    /// A heap whose cells have five fields for boxes. Its collector is off duty.
    pub fn open(setting: Setting) -> Result<Heap> {
        const BOXES: u32 = 5;
        let Setting {
            cells,
            mutators,
            stack,
        } = setting;
        let mut handle = raw::HeapCol::ZERO;
        checked(unsafe { raw::heap_open(cells, mutators, stack, BOXES, &mut handle) })?;
        Ok(Heap {
            handle,
            spots: Vec::new(),
        })
    }

    /// The next mutator, out, with so many places: 8 or more.
    pub fn mutator(&mut self, room: u32) -> Result<Mutator> {
        let mut handle = raw::HeapMut::ZERO;
        checked(unsafe { raw::heap_seat(&mut self.handle, room, &mut handle) })?;
        let spot = Arc::new(Spot::new(handle));
        self.spots.push(Arc::clone(&spot));
        Ok(Mutator::new(spot))
    }
}

impl Drop for Heap {
    fn drop(&mut self) {
        let _ = unsafe { raw::heap_close(&mut self.handle) };
    }
}
