//! The proved concurrent heap for programs in Rust: cells of five fields, collected while the
//! threads go on. It is a binding of the C library, whose header is examples/c/heap.h.
//!
//! ```
//! use heap::{Collector, Heap, Setting, Value};
//!
//! # fn main() -> heap::Result<()> {
//! let mut heap = Heap::open(Setting { cells: 1000, mutators: 1, stack: 100 })?;
//! let mut mutator = heap.mutator(100)?;
//! let collector = Collector::new(heap)?.run();
//! let sum = mutator.enter(|frame| {
//!     let one = frame.make(&[Value::Number(1)])?;
//!     let two = frame.make(&[Value::Number(2), Value::Cell(one)])?;
//!     let mut sum = 0;
//!     frame.walk(two, |frame, at| {
//!         let [number, rest, ..] = frame.read_all(at)?;
//!         if let Value::Number(n) = number {
//!             sum += n;
//!         }
//!         Ok(match rest {
//!             Value::Cell(rest) => Some(rest),
//!             _ => None,
//!         })
//!     })?;
//!     Ok(sum)
//! })?;
//! assert_eq!(sum, Ok::<u64, heap::Error>(3));
//! collector.stop();
//! # Ok(())
//! # }
//! ```
//!
//! A place is of its frame alone. It does not outlive it:
//!
//! ```compile_fail
//! # fn f(mutator: &mut heap::Mutator) {
//! let kept = mutator.enter(|frame| frame.make(&[]));
//! # }
//! ```
//!
//! nor can another mutator use it:
//!
//! ```compile_fail
//! # fn f(one: &mut heap::Mutator, other: &mut heap::Mutator) {
//! let _ = one.enter(|frame| {
//!     let place = frame.anchor();
//!     let _ = other.enter(|its| its.read(place, 0).is_ok());
//! });
//! # }
//! ```
//!
//! A mutator goes to another thread, and no two threads share one:
//!
//! ```compile_fail
//! fn shared<T: Sync>() {}
//! shared::<heap::Mutator>();
//! ```

mod collector;
mod error;
mod frame;
mod heap;
mod mutator;
mod raw;
mod spot;

pub use collector::{Collector, Running, Stats, Step};
pub use error::{Error, Result};
pub use frame::{Frame, Outer, Place, Value, FIELDS};
pub use heap::{Heap, Setting};
pub use mutator::Mutator;
