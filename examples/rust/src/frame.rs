use crate::error::{checked, Error, Result};
use crate::mutator::patiently;
use crate::raw::{self, HeapMut, HeapVal};
use crate::spot::Spot;
use std::marker::PhantomData;

/// How many fields a cell has.
pub const FIELDS: usize = 5;

/// Neither longer nor shorter than `'f`, so that no two frames have one brand.
type Brand<'f> = PhantomData<fn(&'f ()) -> &'f ()>;

/// Where a frame holds a cell. It is of that frame alone, and does not outlive it.
#[derive(Clone, Copy, Debug)]
pub struct Place<'f> {
    index: usize,
    brand: Brand<'f>,
}

/// What a field holds.
#[derive(Clone, Copy, Debug)]
pub enum Value<'f> {
    /// Nothing.
    Null,
    /// A number below 2^62.
    Number(u64),
    /// The cell at a place.
    Cell(Place<'f>),
}

/// What makes places of an outer frame `'f` known in the frame `'g` inside it.
#[derive(Clone, Copy)]
pub struct Outer<'f, 'g> {
    of: Brand<'f>,
    to: Brand<'g>,
}

impl<'f, 'g> Outer<'f, 'g> {
    /// The place of the outer frame as one of the inner frame.
    pub fn place(self, outer: Place<'f>) -> Place<'g> {
        at(outer.index)
    }
}

/// A part of a mutator's list of places, from some place on. All that it holds is not freed.
pub struct Frame<'f> {
    spot: *const Spot,
    brand: Brand<'f>,
}

/// Takes the mutator back at the end of its scope.
struct Parked<'a>(&'a Spot);

impl Drop for Parked<'_> {
    fn drop(&mut self) {
        self.0.unpark();
    }
}

fn at<'f>(index: usize) -> Place<'f> {
    Place {
        index,
        brand: PhantomData,
    }
}

fn word(value: Value<'_>) -> HeapVal {
    match value {
        Value::Null => HeapVal {
            tag: raw::NULL,
            n: 0,
        },
        Value::Number(n) => HeapVal { tag: raw::NUM, n },
        Value::Cell(place) => HeapVal {
            tag: raw::REF,
            n: place.index as u64,
        },
    }
}

fn value<'f>(word: HeapVal) -> Value<'f> {
    match word.tag {
        raw::NUM => Value::Number(word.n),
        raw::REF => Value::Cell(at(word.n as usize)),
        _ => Value::Null,
    }
}

const NOTHING: HeapVal = HeapVal {
    tag: raw::NULL,
    n: 0,
};

impl<'f> Frame<'f> {
    /// The spot outlives the frame: only `enter` makes one, and frames in it.
    pub(crate) fn new(spot: &Spot) -> Frame<'f> {
        Frame {
            spot,
            brand: PhantomData,
        }
    }

    fn spot(&self) -> &Spot {
        unsafe { &*self.spot }
    }

    fn handle(&mut self) -> *mut HeapMut {
        self.spot().handle()
    }

    /// The one cell that all mutators share from the start. No field can name it.
    pub fn anchor(&self) -> Place<'f> {
        at(0)
    }

    /// How many places the mutator holds.
    pub fn held(&mut self) -> usize {
        unsafe { raw::heap_held(self.handle()) }
    }

    /// How many more it may hold.
    pub fn room(&mut self) -> usize {
        unsafe { raw::heap_room(self.handle()) }
    }

    /// The safe point. A cycle waits for it, so call it often where no cell is made.
    pub fn answer(&mut self) -> Result<()> {
        checked(unsafe { raw::heap_answer(self.handle()) })
    }

    /// A new cell of these values, at most five; its other fields are null. It waits while none is
    /// free.
    pub fn make(&mut self, values: &[Value<'f>]) -> Result<Place<'f>> {
        if values.len() > FIELDS {
            return Err(Error::BadSize);
        }
        let mut words = [NOTHING; FIELDS];
        for (to, from) in words.iter_mut().zip(values) {
            *to = word(*from);
        }
        let (handle, mut place) = (self.handle(), 0);
        patiently(handle, || {
            checked(unsafe { raw::heap_make(handle, words.as_ptr(), FIELDS, &mut place) })
        })?;
        Ok(at(place))
    }

    /// What a field holds. A cell is held at the next place.
    pub fn read(&mut self, place: Place<'f>, field: usize) -> Result<Value<'f>> {
        let mut out = NOTHING;
        checked(unsafe { raw::heap_read(self.handle(), place.index, field, &mut out) })?;
        Ok(value(out))
    }

    /// What its five fields hold, read one after the other. Not of the anchor.
    pub fn read_all(&mut self, place: Place<'f>) -> Result<[Value<'f>; FIELDS]> {
        let mut out = [NOTHING; FIELDS];
        checked(unsafe {
            raw::heap_read_all(self.handle(), place.index, out.as_mut_ptr(), FIELDS)
        })?;
        Ok(out.map(value))
    }

    /// Stores a value, whatever the field holds.
    pub fn write(&mut self, place: Place<'f>, field: usize, new: Value<'f>) -> Result<()> {
        checked(unsafe { raw::heap_write(self.handle(), place.index, field, word(new)) })
    }

    /// One compare and exchange: whether the field held `old`, and now holds `new`.
    pub fn swap(
        &mut self,
        place: Place<'f>,
        field: usize,
        old: Value<'f>,
        new: Value<'f>,
    ) -> Result<bool> {
        let (handle, old, new) = (self.handle(), word(old), word(new));
        match checked(unsafe { raw::heap_swap(handle, place.index, field, old, new) }) {
            Err(Error::Moved) => Ok(false),
            said => said.map(|()| true),
        }
    }

    /// Whether two places hold one cell.
    pub fn is_same(&mut self, one: Place<'f>, other: Place<'f>) -> Result<bool> {
        let mut same = 0;
        checked(unsafe { raw::heap_same(self.handle(), one.index, other.index, &mut same) })?;
        Ok(same == 1)
    }

    /// A frame inside this one: what it comes to hold is let go at its end.
    pub fn scope<T>(
        &mut self,
        work: impl for<'g> FnOnce(&mut Frame<'g>, Outer<'f, 'g>) -> T,
    ) -> Result<T> {
        let base = self.held();
        let done = work(
            &mut Frame::new(self.spot()),
            Outer {
                of: self.brand,
                to: PhantomData,
            },
        );
        checked(unsafe { raw::heap_keep(self.handle(), base, 0, 0) })?;
        Ok(done)
    }

    /// A frame inside this one, of whose places one is handed on.
    pub fn scope_for(
        &mut self,
        work: impl for<'g> FnOnce(&mut Frame<'g>, Outer<'f, 'g>) -> Result<Place<'g>>,
    ) -> Result<Place<'f>> {
        let base = self.held();
        let it = work(
            &mut Frame::new(self.spot()),
            Outer {
                of: self.brand,
                to: PhantomData,
            },
        );
        let (from, count) = it.as_ref().map_or((0, 0), |place| (place.index, 1));
        checked(unsafe { raw::heap_keep(self.handle(), base, from, count) })?;
        it.map(|_| at(base))
    }

    /// Goes from cell to cell: each turn is a frame of its own, with the cell that the turn before
    /// handed on, and the first one with this cell. It ends with the turn that hands on none.
    pub fn walk(
        &mut self,
        first: Place<'f>,
        mut turn: impl for<'g> FnMut(&mut Frame<'g>, Place<'g>) -> Result<Option<Place<'g>>>,
    ) -> Result<()> {
        let base = self.held();
        let mut next = Some(first.index);
        let mut said = Ok(());
        while let Some(place) = next {
            checked(unsafe { raw::heap_keep(self.handle(), base, place, 1) })?;
            match turn(&mut Frame::new(self.spot()), at(base)) {
                Ok(place) => next = place.map(|place| place.index),
                Err(error) => (next, said) = (None, Err(error)),
            }
        }
        checked(unsafe { raw::heap_keep(self.handle(), base, 0, 0) })?;
        said
    }

    /// Does what may block. Meanwhile whoever makes the steps answers, and what is held stays held.
    pub fn parked<T>(&mut self, blocks: impl FnOnce() -> T) -> T {
        self.spot().park();
        let _parked = Parked(self.spot());
        blocks()
    }
}
