//! The calls of the library libwb as they are. `include/wb.h` says what each gives, and what its caller owes.
#![no_std]

use core::ffi::{c_char, c_void};

/// The place of one host. Its parts are the library's.
#[repr(C)]
pub struct Host {
    pub at: *mut c_void,
    pub is_open: bool,
}

pub const DONE: u32 = 0;
pub const WAITS: u32 = 1;
pub const NOT_DONE: u32 = 2;
pub const CLOSED: u32 = 3;
pub const MEMORY: u32 = 4;
pub const NOTHING: u32 = 6;
pub const FULL: u32 = 18;
pub const NO_DATAGRAM: u32 = 100;

/// What `wb_due` gives if nothing is due.
pub const NEVER: u64 = u64::MAX;

extern "C" {
    pub fn wb_open(host: *mut Host) -> u32;
    pub fn wb_line(host: *mut Host, line: *const u8, length: usize, buffer: *mut u8, room: usize, size: *mut usize) -> u32;
    pub fn wb_block(host: *mut Host, buffer: *mut u8, room: usize, size: *mut usize) -> u32;
    pub fn wb_came(host: *mut Host, now: u64, datagram: *const u8, length: usize) -> u32;
    pub fn wb_came_from(host: *mut Host, now: u64, place: u64, owner: u64, has_owner: bool, datagram: *const u8, length: usize) -> u32;
    pub fn wb_wall(host: *mut Host, now: u64, wall: u64) -> u32;
    pub fn wb_gone(host: *mut Host, now: u64, place: u64, owner: u64, has_owner: bool) -> u32;
    pub fn wb_tick(host: *mut Host, now: u64) -> u32;
    pub fn wb_add(host: *mut Host, now: u64, drawop: *const u8, length: usize) -> u32;
    pub fn wb_ask(host: *mut Host, question: u32, creator: u32, number: u32, width: u32, height: u32) -> u32;
    pub fn wb_event(host: *mut Host, kind: *mut u32, buffer: *mut u8, room: usize, size: *mut usize) -> u32;
    pub fn wb_due(host: *mut Host) -> u64;
    pub fn wb_close(host: *mut Host);
    pub fn wb_version() -> *const c_char;
}
