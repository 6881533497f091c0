//! Search for many literals at once, by the C library `libfiolargu`, whose scans are proved to report exactly the literals
//! that occur, each once and in order, however a stream is cut.
//!
//! ```
//! use fiolargu::Plan;
//!
//! let plan = Plan::new(["cat", "dog"])?;
//! for hit in plan.scan(b"concat") {
//!     let literal = plan.literal(hit.literal())?;
//!     println!("{} at {:?}", String::from_utf8_lossy(&literal), hit.range()); // cat at 3..6
//! }
//! # Ok::<(), fiolargu::Error>(())
//! ```
//!
//! A [`Stream`] searches a text that comes in pieces:
//!
//! ```
//! # use fiolargu::Plan;
//! let plan = Plan::builder().ignore_case(true).build(["cat"])?;
//! let mut stream = plan.stream()?;
//! let mut hits = Vec::new();
//! stream.feed(b"a conC", &mut hits)?;
//! stream.feed(b"at", &mut hits)?;
//! assert_eq!((hits[0].start(), hits[0].end()), (5, 8));
//! # Ok::<(), fiolargu::Error>(())
//! ```
//!
//! Plans and streams are [`Send`] and not [`Sync`]: each thread has a handle of its own, by [`Plan::try_clone`], which copies no
//! literal.
//!
//! ```
//! # use fiolargu::Plan;
//! let plan = Plan::new(["cat"])?;
//! let other = plan.try_clone()?;
//! let found = std::thread::spawn(move || other.count(b"cat cat")).join().unwrap();
//! assert_eq!(found, Ok(2));
//! # Ok::<(), fiolargu::Error>(())
//! ```
//!
//! ```compile_fail
//! fn is_sync<T: Sync>() {}
//! is_sync::<fiolargu::Plan>();
//! ```
//!
//! # Linking
//!
//! The build script looks for `libfiolargu.a` or `libfiolargu.so` in the folder that `FIOLARGU_LIB_DIR` names, then in `lib/` of the
//! prefix or repository that holds this crate, then where `pkg-config` says. It links the archive where there is one, unless
//! `FIOLARGU_SHARED` is set.
//!
//! # Memory
//!
//! Where the library cannot allocate, calls answer [`Error::OutOfMemory`]. Only the iterator [`Scan`] and `Clone` panic then. A
//! thread that searches needs 256 KiB of stack.

#![warn(missing_docs)]

mod error;
mod plan;
mod stream;
mod sys;

pub use error::Error;
pub use plan::{check, Buckets, Builder, Plan, Scan};
pub use stream::Stream;

use std::fmt;
use std::ops::Range;

/// A literal that ends in a text.
#[repr(C)]
#[derive(Clone, Copy, Default, PartialEq, Eq, Hash)]
pub struct Hit {
    end: u64,
    literal: u32,
    length: u32,
}

impl Hit {
    /// The number of the literal in the plan.
    pub fn literal(&self) -> usize {
        self.literal as usize
    }

    /// The position of its first byte, from the start of the text or from the base of the stream.
    pub fn start(&self) -> u64 {
        self.end - u64::from(self.length)
    }

    /// The position after its last byte.
    pub fn end(&self) -> u64 {
        self.end
    }

    /// The bytes that it covers, to index a text in memory.
    pub fn range(&self) -> Range<usize> {
        self.start() as usize..self.end as usize
    }
}

impl fmt::Debug for Hit {
    fn fmt(&self, f: &mut fmt::Formatter<'_>) -> fmt::Result {
        f.debug_struct("Hit").field("literal", &self.literal).field("start", &self.start()).field("end", &self.end).finish()
    }
}

/// The version of the C library: three numbers.
pub fn library_version() -> (u32, u32, u32) {
    // SAFETY: the call takes nothing and only returns a number.
    let version = unsafe { sys::fiolargu_version() };
    (version / 1_000_000, version / 1_000 % 1_000, version % 1_000)
}
