//! The calls of libpgserial, as clients/c/pgserial.h declares them: tests/test_declarations.py compares the two.

use std::ffi::c_void;

pub const ABI: u32 = 3;
pub const DONE: i32 = 0;
pub const REFUSED: i32 = 1;
pub const NEEDS_ROOM: i32 = 2;
pub const FULL: i32 = 3;
pub const MEMORY: i32 = 4;
pub const NO_TEXT: i32 = 5;
pub const DEVICE: i32 = 6;
pub const MISUSE: i32 = 7;
pub const UNPRINTED: i32 = 8;
pub const NO_ORDER: i32 = 9;
pub const UNKNOWN: i32 = 10;
pub const TOO_MANY: i32 = 11;

#[repr(C)]
#[derive(Clone, Copy)]
pub struct Report {
    pub length: usize,
    pub line: u64,
}

#[repr(C)]
pub struct Handle {
    pub at: *mut c_void,
    pub is_open: u8,
}

#[rustfmt::skip]
extern "C" {
    pub fn pgserial_abi() -> u32;
    pub fn pgserial_run(script: *const u8, script_length: usize, most_events: u32, out: *mut u8, room: usize, report: *mut Report) -> i32;
    pub fn pgserial_audit(script: *const u8, script_length: usize, most_events: u32, out: *mut u8, room: usize, report: *mut Report) -> i32;
    pub fn pgserial_check(transcript: *const u8, transcript_length: usize, has_time: u32, out: *mut u8, room: usize, report: *mut Report) -> i32;
    pub fn pgserial_explore(script: *const u8, script_length: usize, most_events: u32, most_schedules: u64, out: *mut u8, room: usize, report: *mut Report) -> i32;
    pub fn pgserial_open(handle: *mut Handle, most_events: u32) -> i32;
    pub fn pgserial_open_dump(handle: *mut Handle, dump: *const u8, dump_length: usize, most_events: u32, out: *mut u8, room: usize, report: *mut Report) -> i32;
    pub fn pgserial_call(handle: *mut Handle, line: *const u8, line_length: usize, report: *mut Report) -> i32;
    pub fn pgserial_dump(handle: *mut Handle, session: u32, report: *mut Report) -> i32;
    pub fn pgserial_serial_order(handle: *mut Handle, report: *mut Report) -> i32;
    pub fn pgserial_tables(handle: *mut Handle, report: *mut Report) -> i32;
    pub fn pgserial_reply(handle: *mut Handle, out: *mut u8, room: usize, report: *mut Report) -> i32;
    pub fn pgserial_prepare(handle: *mut Handle, line: *const u8, line_length: usize, report: *mut Report) -> i32;
    pub fn pgserial_bind_bigint(handle: *mut Handle, number: usize, place: usize, value: i64) -> i32;
    pub fn pgserial_bind_text(handle: *mut Handle, number: usize, place: usize, text: *const u8, length: usize) -> i32;
    pub fn pgserial_bind_bytea(handle: *mut Handle, number: usize, place: usize, value: *const u8, length: usize) -> i32;
    pub fn pgserial_bind_null(handle: *mut Handle, number: usize, place: usize) -> i32;
    pub fn pgserial_execute(handle: *mut Handle, number: usize, report: *mut Report) -> i32;
    pub fn pgserial_forget(handle: *mut Handle) -> i32;
    pub fn pgserial_close(handle: *mut Handle) -> i32;
}
