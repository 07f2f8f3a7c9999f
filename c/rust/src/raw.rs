//! The calls of `kcas.h` that this crate makes, and their data.

use std::ffi::{c_char, CStr};
use std::ptr::null_mut;

use crate::structures::{Object, Op};

#[repr(C)]
pub struct Handle {
    held: u32,
    busy: u32,
    at: *mut u8,
}

impl Handle {
    pub const CLOSED: Handle = Handle {
        held: 0,
        busy: 0,
        at: null_mut(),
    };
}

#[repr(C)]
#[derive(Clone, Copy, Default)]
pub struct RawReply {
    pub kind: u32,
    pub value: u32,
}

#[repr(C)]
#[derive(Clone, Copy, Default)]
pub struct Seen {
    pub location: u32,
    pub version: u32,
    pub value: u32,
}

extern "C" {
    pub fn kcas_open(
        values: *const u32,
        count: usize,
        callers: *mut Handle,
        callers_count: usize,
    ) -> u32;
    pub fn kcas_close(caller: *mut Handle) -> u32;
    pub fn kcas_try(
        caller: *mut Handle,
        ops: *const Op,
        count: usize,
        replies: *mut RawReply,
        room: usize,
        wakes: *mut u64,
    ) -> u32;
    pub fn kcas_view(
        caller: *mut Handle,
        ops: *const Op,
        count: usize,
        replies: *mut RawReply,
        room: usize,
    ) -> u32;
    pub fn kcas_add(
        caller: *mut Handle,
        location: u32,
        number: u32,
        before: *mut u32,
        wakes: *mut u64,
    ) -> u32;
    pub fn kcas_read(caller: *mut Handle, location: u32, value: *mut u32, version: *mut u32)
        -> u32;
    pub fn kcas_reads(caller: *mut Handle, reads: *mut Seen, room: usize) -> usize;
    pub fn kcas_bad_op(caller: *mut Handle, ops: *const Op, count: usize, wakes: *mut u64)
        -> usize;
    pub fn kcas_number(caller: *mut Handle) -> u32;
    pub fn kcas_hang(caller: *mut Handle) -> u32;
    pub fn kcas_hang_step(caller: *mut Handle) -> u32;
    pub fn kcas_signalled(caller: *mut Handle) -> u32;
    pub fn kcas_leave(caller: *mut Handle) -> u32;
    pub fn kcas_cells(object: *const Object) -> u32;
    pub fn kcas_lay(object: *mut Object, values: *mut u32, room: usize, end: *mut u32) -> u32;
    fn kcas_version() -> *const c_char;
    fn kcas_answer_name(answer: u32) -> *const c_char;
}

pub fn version() -> &'static str {
    unsafe { CStr::from_ptr(kcas_version()) }
        .to_str()
        .unwrap_or("")
}

pub fn name_of(answer: u32) -> &'static str {
    unsafe { CStr::from_ptr(kcas_answer_name(answer)) }
        .to_str()
        .unwrap_or("")
}
