use crate::sys::{self, Handle};
use crate::{Error, Hit, Stream};
use std::cell::UnsafeCell;
use std::fmt;
use std::iter::FusedIterator;

/// How many hits a call of the library may give beyond those of one end.
const ROOM: usize = 1024;

/// How many buckets a plan may have.
#[derive(Clone, Copy, Debug, PartialEq, Eq)]
pub enum Buckets {
    /// At most eight.
    Eight,
    /// At most sixteen, for lists of many literals.
    Sixteen,
}

/// The options of a plan. Made by [`Plan::builder`].
#[derive(Clone, Copy, Debug)]
pub struct Builder {
    flags: u32,
}

impl Builder {
    /// Whether the case of A to Z is ignored. It counts by default.
    pub fn ignore_case(self, is_ignored: bool) -> Builder {
        self.with(sys::IGNORE_CASE, is_ignored)
    }

    /// How many buckets the plan may have, eight by default. Hits are the same.
    pub fn buckets(self, buckets: Buckets) -> Builder {
        self.with(sys::SIXTEEN_BUCKETS, buckets == Buckets::Sixteen)
    }

    fn with(self, flag: u32, is_set: bool) -> Builder {
        Builder { flags: if is_set { self.flags | flag } else { self.flags & !flag } }
    }

    /// A plan of these patterns. See [`Plan::new`].
    pub fn build<P: AsRef<[u8]>>(self, patterns: impl IntoIterator<Item = P>) -> Result<Plan, Error> {
        let patterns: Vec<P> = patterns.into_iter().collect();
        let bytes: Vec<sys::Bytes> = patterns.iter().map(|pattern| pattern.as_ref().into()).collect();
        let mut numbers = vec![0; bytes.len()];
        // SAFETY: each pointer leads to as many values as the length after it says, and `patterns` outlives the call.
        let mut plan = Plan::made(|plan, fault_at| unsafe {
            sys::fiolargu_plan_new(
                plan, bytes.as_ptr(), bytes.len(), self.flags, numbers.as_mut_ptr(), numbers.len(), fault_at,
            )
        })?;
        let number = |number| if number == sys::NO_LITERAL { None } else { Some(number as usize) };
        plan.literal_of = numbers.into_iter().map(number).collect();
        Ok(plan)
    }

    /// A plan of the lines of a text, as of a pattern file. See [`Plan::new`].
    pub fn build_from_lines(self, text: &[u8]) -> Result<Plan, Error> {
        // SAFETY: the pointer leads to `text.len()` bytes.
        Plan::made(|plan, fault_at| unsafe {
            sys::fiolargu_plan_of_lines(plan, text.as_ptr(), text.len(), self.flags, fault_at)
        })
    }
}

/// A list of literals, ready to search.
pub struct Plan {
    // The library wants a pointer that may be written, also where it only reads: the cell makes it from `&Plan`, and keeps
    // `Plan` from being `Sync`.
    handle: UnsafeCell<Handle>,
    literal_of: Vec<Option<usize>>,
    info: sys::Info,
}

// SAFETY: rule 2 of `fiolargu.h` has two parts.
// - One call at a time uses a handle. `Plan` is not `Sync`, so at most one thread has a `&Plan`.
// - A handle goes to another thread by a lock, by the start or the end of a thread, or by a sequentially consistent atomic. Safe
//   Rust also has channels and atomics with release and acquire, which the rule does not name. They are enough: each call in the
//   first thread happens before each call in the second. Handles share the plan, which no call changes, and the atomic count of
//   its owners.
unsafe impl Send for Plan {}

impl Plan {
    /// A plan of these patterns. Its literals are the patterns that are not empty, each once, ordered by length and then by
    /// bytes.
    ///
    /// # Errors
    ///
    /// [`Error::TooManyPatterns`], [`Error::LiteralTooLong`], [`Error::ListTooLarge`], [`Error::NoLiterals`] (also for an empty list),
    /// [`Error::OutOfMemory`].
    pub fn new<P: AsRef<[u8]>>(patterns: impl IntoIterator<Item = P>) -> Result<Plan, Error> {
        Plan::builder().build(patterns)
    }

    /// The options of a plan.
    pub fn builder() -> Builder {
        Builder { flags: 0 }
    }

    /// The plan of number `which` of a plan file, as `litplan pack` writes it. All certificates of the file are checked.
    ///
    /// # Errors
    ///
    /// [`Error::BadPlanFile`], [`Error::NoSuchPlan`], [`Error::OutOfMemory`].
    pub fn from_plan_file(file: &[u8], which: usize) -> Result<Plan, Error> {
        // SAFETY: the pointer leads to `file.len()` bytes.
        Plan::made(|plan, fault_at| unsafe { sys::fiolargu_plan_load(plan, file.as_ptr(), file.len(), which, fault_at) })
    }

    /// A plan file with this plan.
    ///
    /// # Errors
    ///
    /// [`Error::OutOfMemory`].
    pub fn to_plan_file(&self) -> Result<Vec<u8>, Error> {
        let mut len = 0;
        // SAFETY: no byte is written where there is no room.
        let status = unsafe { sys::fiolargu_plan_save(self.handle(), [0u8; 1].as_mut_ptr(), 0, &mut len) };
        if status != sys::SMALL_BUFFER {
            Error::answered(status, 0)?;
        }
        let mut file = vec![0; len];
        // SAFETY: the pointer leads to `file.len()` bytes.
        let status = unsafe { sys::fiolargu_plan_save(self.handle(), file.as_mut_ptr(), file.len(), &mut len) };
        Error::answered(status, 0)?;
        Ok(file)
    }

    /// A second handle of the same plan, for another thread. It copies no literal.
    ///
    /// # Errors
    ///
    /// [`Error::OutOfMemory`].
    pub fn try_clone(&self) -> Result<Plan, Error> {
        // SAFETY: both handles are valid, and they are two.
        let mut plan = Plan::made(|plan, _| unsafe { sys::fiolargu_plan_share(self.handle(), plan) })?;
        plan.literal_of = self.literal_of.clone();
        Ok(plan)
    }

    /// A plan whose handle a call makes. The call gets a null handle, and room for a position.
    fn made(make: impl FnOnce(*mut Handle, *mut usize) -> i32) -> Result<Plan, Error> {
        let mut plan = Plan { handle: UnsafeCell::new(Handle::NULL), literal_of: Vec::new(), info: sys::Info::default() };
        let mut fault_at = 0;
        Error::answered(make(plan.handle.get_mut(), &mut fault_at), fault_at)?;
        // SAFETY: both pointers lead to a value.
        Error::answered(unsafe { sys::fiolargu_plan_info(plan.handle.get(), &mut plan.info) }, 0)?;
        Ok(plan)
    }

    pub(crate) fn handle(&self) -> *mut Handle {
        self.handle.get()
    }

    /// How many hits a buffer needs room for, so that a call gives at least `more`.
    pub(crate) fn room(&self, more: usize) -> usize {
        self.len() + 1 + more
    }

    /// The number of literals, at least one.
    #[allow(clippy::len_without_is_empty)]
    pub fn len(&self) -> usize {
        self.info.literals as usize
    }

    /// The bytes of the longest literal.
    pub fn longest(&self) -> usize {
        self.info.longest as usize
    }

    /// What the plan costs. No grouping into as many buckets as it may have costs less.
    pub fn cost(&self) -> u64 {
        self.info.cost
    }

    /// Whether the case of A to Z is ignored.
    pub fn ignores_case(&self) -> bool {
        self.info.flags & sys::IGNORE_CASE != 0
    }

    /// For each pattern the number of its literal, and `None` for an empty pattern. Empty for a plan that was read.
    pub fn literal_of(&self) -> &[Option<usize>] {
        &self.literal_of
    }

    /// The bytes of a literal, in lower case where case is ignored.
    ///
    /// # Errors
    ///
    /// [`Error::OutOfRange`] where the plan has no such literal.
    pub fn literal(&self, number: usize) -> Result<Vec<u8>, Error> {
        let (mut literal, mut len) = (vec![0; self.longest()], 0);
        // SAFETY: the pointer leads to `literal.len()` bytes.
        let status = unsafe {
            sys::fiolargu_plan_literal(self.handle(), number, literal.as_mut_ptr(), literal.len(), &mut len)
        };
        Error::answered(status, 0)?;
        literal.truncate(len);
        Ok(literal)
    }

    /// The hits in a text, in order of their end, and of their literal where ends are equal. They are found as they are asked for.
    pub fn scan<'p, 't>(&'p self, text: &'t [u8]) -> Scan<'p, 't> {
        let room = self.room(text.len().min(ROOM));
        Scan { plan: self, text, place: 0, buffer: vec![Hit::default(); room], taken: 0, found: 0 }
    }

    /// The same hits at once, added to `hits`.
    ///
    /// # Errors
    ///
    /// [`Error::OutOfMemory`], after a part of the hits.
    pub fn scan_into(&self, text: &[u8], hits: &mut Vec<Hit>) -> Result<(), Error> {
        self.each_block(text, |found| hits.extend_from_slice(found))
    }

    /// How many hits there are in a text.
    ///
    /// # Errors
    ///
    /// [`Error::OutOfMemory`].
    pub fn count(&self, text: &[u8]) -> Result<usize, Error> {
        let mut count = 0;
        self.each_block(text, |found| count += found.len())?;
        Ok(count)
    }

    /// Calls a closure with the hits, some at a time.
    fn each_block(&self, text: &[u8], mut take: impl FnMut(&[Hit])) -> Result<(), Error> {
        let mut scan = self.scan(text);
        while scan.found_more()? {
            take(&scan.buffer[..scan.found]);
        }
        Ok(())
    }

    /// The first position after `from` at which a literal ends, or `None`.
    ///
    /// # Errors
    ///
    /// [`Error::OutOfRange`] where `from` is above the length of the text.
    pub fn next_end(&self, text: &[u8], from: usize) -> Result<Option<usize>, Error> {
        let mut end = 0;
        // SAFETY: the pointer leads to `text.len()` bytes.
        let status = unsafe { sys::fiolargu_next(self.handle(), text.as_ptr(), text.len(), from, &mut end) };
        Error::answered(status, 0)?;
        Ok(if end == 0 { None } else { Some(end) })
    }

    /// A stream by this plan, whose positions count from 0. It keeps a share of the plan, so the plan may be dropped before it.
    ///
    /// # Errors
    ///
    /// [`Error::OutOfMemory`].
    pub fn stream(&self) -> Result<Stream, Error> {
        Stream::open(self, 0)
    }

    /// The same, whose positions count from `base`.
    ///
    /// # Errors
    ///
    /// [`Error::OutOfMemory`].
    pub fn stream_at(&self, base: u64) -> Result<Stream, Error> {
        Stream::open(self, base)
    }
}

impl Drop for Plan {
    fn drop(&mut self) {
        // SAFETY: the handle is valid, and nobody uses it again.
        unsafe { sys::fiolargu_plan_free(self.handle.get_mut()) }
    }
}

impl Clone for Plan {
    /// As [`Plan::try_clone`]. Panics where memory runs out.
    fn clone(&self) -> Plan {
        self.try_clone().expect("a handle of a plan")
    }
}

impl fmt::Debug for Plan {
    fn fmt(&self, f: &mut fmt::Formatter<'_>) -> fmt::Result {
        f.debug_struct("Plan").field("literals", &self.len()).field("cost", &self.cost()).finish_non_exhaustive()
    }
}

/// The hits in a text. Made by [`Plan::scan`]. `next` panics where memory runs out.
pub struct Scan<'p, 't> {
    plan: &'p Plan,
    text: &'t [u8],
    place: usize,
    buffer: Vec<Hit>,
    taken: usize,
    found: usize,
}

impl Scan<'_, '_> {
    /// Searches on until there are hits in the buffer. False at the end of the text.
    fn found_more(&mut self) -> Result<bool, Error> {
        self.taken = 0;
        self.found = 0;
        while self.found == 0 && self.place < self.text.len() {
            // SAFETY: each pointer leads to as many values as the length after it says, and what is written overlaps nothing.
            let status = unsafe {
                sys::fiolargu_scan(
                    self.plan.handle(), self.text.as_ptr(), self.text.len(), &mut self.place, self.buffer.as_mut_ptr(),
                    self.buffer.len(), &mut self.found,
                )
            };
            Error::answered(status, 0)?;
        }
        Ok(self.found > 0)
    }
}

impl Iterator for Scan<'_, '_> {
    type Item = Hit;

    fn next(&mut self) -> Option<Hit> {
        if self.taken == self.found && !self.found_more().expect("memory for a scan") {
            return None;
        }
        self.taken += 1;
        Some(self.buffer[self.taken - 1])
    }
}

impl FusedIterator for Scan<'_, '_> {}

/// How many plans a plan file has, each with a certificate that holds.
///
/// # Errors
///
/// [`Error::BadPlanFile`], [`Error::OutOfMemory`].
pub fn check(file: &[u8]) -> Result<usize, Error> {
    let (mut plans, mut fault_at) = (0, 0);
    // SAFETY: the pointer leads to `file.len()` bytes.
    let status = unsafe { sys::fiolargu_check(file.as_ptr(), file.len(), &mut plans, &mut fault_at) };
    Error::answered(status, fault_at)?;
    Ok(plans)
}
