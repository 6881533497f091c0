//! The calls of the C library, as `fiolargu.h` declares them.

use crate::Hit;
use std::ffi::c_void;

/// A plan or a stream of the library: all zero is the null handle.
#[repr(C)]
pub struct Handle {
    at: *mut c_void,
}

impl Handle {
    pub const NULL: Handle = Handle { at: std::ptr::null_mut() };
}

/// Bytes that the library reads.
#[repr(C)]
pub struct Bytes {
    pub at: *const u8,
    pub len: usize,
}

impl From<&[u8]> for Bytes {
    fn from(bytes: &[u8]) -> Bytes {
        Bytes { at: bytes.as_ptr(), len: bytes.len() }
    }
}

/// What a plan has.
#[repr(C)]
#[derive(Default)]
pub struct Info {
    pub literals: u64,
    pub longest: u64,
    pub cost: u64,
    pub flags: u32,
    pub runs: u32,
}

pub const IGNORE_CASE: u32 = 1;
pub const SIXTEEN_BUCKETS: u32 = 2;
pub const NO_LITERAL: u32 = u32::MAX;
pub const SMALL_BUFFER: i32 = 22;

extern "C" {
    pub fn fiolargu_version() -> u32;
    pub fn fiolargu_plan_new(
        plan: *mut Handle, patterns: *const Bytes, count: usize, flags: u32, literal_of: *mut u32, literal_of_len: usize,
        fault_at: *mut usize,
    ) -> i32;
    pub fn fiolargu_plan_of_lines(plan: *mut Handle, text: *const u8, len: usize, flags: u32, fault_at: *mut usize) -> i32;
    pub fn fiolargu_plan_load(plan: *mut Handle, file: *const u8, len: usize, which: usize, fault_at: *mut usize) -> i32;
    pub fn fiolargu_plan_save(plan: *mut Handle, buffer: *mut u8, room: usize, len: *mut usize) -> i32;
    pub fn fiolargu_plan_share(plan: *mut Handle, other: *mut Handle) -> i32;
    pub fn fiolargu_plan_info(plan: *mut Handle, info: *mut Info) -> i32;
    pub fn fiolargu_plan_literal(plan: *mut Handle, literal: usize, buffer: *mut u8, room: usize, len: *mut usize) -> i32;
    pub fn fiolargu_plan_free(plan: *mut Handle);
    pub fn fiolargu_scan(
        plan: *mut Handle, text: *const u8, len: usize, place: *mut usize, hits: *mut Hit, room: usize, count: *mut usize,
    ) -> i32;
    pub fn fiolargu_next(plan: *mut Handle, text: *const u8, len: usize, from: usize, end: *mut usize) -> i32;
    pub fn fiolargu_stream_open(plan: *mut Handle, stream: *mut Handle, base: u64) -> i32;
    pub fn fiolargu_stream_feed(
        stream: *mut Handle, piece: *const u8, len: usize, fed: *mut usize, hits: *mut Hit, room: usize, count: *mut usize,
    ) -> i32;
    pub fn fiolargu_stream_place(stream: *mut Handle, place: *mut u64) -> i32;
    pub fn fiolargu_stream_copy(stream: *mut Handle, other: *mut Handle) -> i32;
    pub fn fiolargu_stream_reset(stream: *mut Handle, base: u64) -> i32;
    pub fn fiolargu_stream_close(stream: *mut Handle);
    pub fn fiolargu_check(file: *const u8, len: usize, plans: *mut usize, fault_at: *mut usize) -> i32;
}
