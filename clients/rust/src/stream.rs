use crate::sys::{self, Handle};
use crate::{Error, Hit, Plan};
use std::cell::UnsafeCell;
use std::fmt;

/// How many hits a call of the library may give beyond those of one end.
const ROOM: usize = 256;

/// A text that comes in pieces, cut anywhere: a hit that spans pieces is found. Made by [`Plan::stream`].
pub struct Stream {
    // As in `Plan`.
    handle: UnsafeCell<Handle>,
    buffer: Vec<Hit>,
}

// SAFETY: rule 2 of `fiolargu.h`, as for `Plan`. `Stream` is not `Sync`, so at most one thread has a `&Stream`. Each safe way to
// another thread puts the calls before it and after it in order. A stream shares nothing but its plan with other handles.
unsafe impl Send for Stream {}

impl Stream {
    pub(crate) fn open(plan: &Plan, base: u64) -> Result<Stream, Error> {
        // SAFETY: both handles are valid.
        Stream::made(plan.room(ROOM), |stream| unsafe { sys::fiolargu_stream_open(plan.handle(), stream, base) })
    }

    /// A stream whose handle a call makes from a null one.
    fn made(room: usize, make: impl FnOnce(*mut Handle) -> i32) -> Result<Stream, Error> {
        let mut stream = Stream { handle: UnsafeCell::new(Handle::NULL), buffer: vec![Hit::default(); room] };
        Error::answered(make(stream.handle.get_mut()), 0)?;
        Ok(stream)
    }

    /// Takes the next bytes, and adds the hits that end in them to `hits`.
    ///
    /// # Errors
    ///
    /// [`Error::StreamTooLong`] where the position would pass 2^64 - 1. [`Error::OutOfMemory`], after a part of the piece: [`place`]
    /// says how much was taken, and `hits` has what ends in that part.
    ///
    /// [`place`]: Stream::place
    pub fn feed(&mut self, mut piece: &[u8], hits: &mut Vec<Hit>) -> Result<(), Error> {
        loop {
            let (mut fed, mut found) = (0, 0);
            // SAFETY: each pointer leads to as many values as the length after it says, and what is written overlaps nothing.
            let status = unsafe {
                sys::fiolargu_stream_feed(
                    self.handle.get_mut(), piece.as_ptr(), piece.len(), &mut fed, self.buffer.as_mut_ptr(), self.buffer.len(),
                    &mut found,
                )
            };
            Error::answered(status, 0)?;
            hits.extend_from_slice(&self.buffer[..found]);
            piece = &piece[fed..];
            if piece.is_empty() {
                return Ok(());
            }
        }
    }

    /// The position: the base, and how many bytes were taken.
    pub fn place(&self) -> u64 {
        let mut place = 0;
        // SAFETY: both pointers lead to a value. The call refuses null handles alone, and this is none.
        let status = unsafe { sys::fiolargu_stream_place(self.handle.get(), &mut place) };
        debug_assert_eq!(status, 0);
        place
    }

    /// A stream at the same position, after the same bytes.
    ///
    /// # Errors
    ///
    /// [`Error::OutOfMemory`].
    pub fn try_clone(&self) -> Result<Stream, Error> {
        // SAFETY: both handles are valid, and they are two.
        Stream::made(self.buffer.len(), |other| unsafe { sys::fiolargu_stream_copy(self.handle.get(), other) })
    }

    /// Begins a new stream with the same plan, whose positions count from `base`.
    pub fn restart(&mut self, base: u64) {
        // SAFETY: the handle is valid. The call refuses null handles alone, and this is none.
        let status = unsafe { sys::fiolargu_stream_reset(self.handle.get_mut(), base) };
        debug_assert_eq!(status, 0);
    }
}

impl Drop for Stream {
    fn drop(&mut self) {
        // SAFETY: the handle is valid, and nobody uses it again.
        unsafe { sys::fiolargu_stream_close(self.handle.get_mut()) }
    }
}

impl Clone for Stream {
    /// As [`Stream::try_clone`]. Panics where memory runs out.
    fn clone(&self) -> Stream {
        self.try_clone().expect("a handle of a stream")
    }
}

impl fmt::Debug for Stream {
    fn fmt(&self, f: &mut fmt::Formatter<'_>) -> fmt::Result {
        f.debug_struct("Stream").field("place", &self.place()).finish_non_exhaustive()
    }
}
