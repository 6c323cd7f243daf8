//! The library's functions as `include/cvl.h` declares them.

use std::ffi::c_void;
use std::ptr;

pub type Status = i32;

pub const OK: Status = 0;
pub const NO_MEMORY: Status = -1;
pub const IDLE: Status = 0;
pub const WAITING: Status = 1;
pub const ANSWERED: Status = 2;
pub const ANSWERED_BLOCK: Status = 3;
pub const SERVED: Status = 1;
pub const CLOSED: Status = 0;
pub const LEFT_OTHERS: Status = 1;
pub const UNFINISHED: Status = 2;

#[repr(C)]
pub struct Caller {
    state: u64,
    port: *mut c_void,
    apart: [u64; 6],
}

impl Caller {
    pub fn shut() -> Caller {
        Caller { state: 0, port: ptr::null_mut(), apart: [0; 6] }
    }

    pub fn is_open(&self) -> bool {
        self.state != 0
    }
}

#[repr(C)]
#[derive(Clone, Copy, Default)]
pub struct Answer {
    pub kind: u32,
    pub fault: u32,
    pub value: i64,
    pub count: u64,
    pub place: u64,
    pub replies: u64,
}

#[repr(C)]
pub struct Served {
    pub calls: u64,
    pub waves: u64,
    pub kernels: u64,
}

#[repr(C)]
#[derive(Default)]
pub struct Closed {
    pub history: u64,
    pub audited: bool,
}

#[link(name = "cvl", kind = "static")]
unsafe extern "C" {
    pub fn cvl_open(room: u64, callers: *mut Caller, count: usize) -> Status;
    pub fn cvl_post(caller: *mut Caller, line: *const u8, length: usize) -> Status;
    pub fn cvl_post_block(caller: *mut Caller, text: *const u8, length: usize) -> Status;
    pub fn cvl_post_ints(caller: *mut Caller, name: *const u8, length: usize, items: *const i64, count: usize) -> Status;
    pub fn cvl_post_bools(caller: *mut Caller, name: *const u8, length: usize, items: *const bool, count: usize) -> Status;
    pub fn cvl_post_lengths(caller: *mut Caller, name: *const u8, length: usize, items: *const i64, count: usize) -> Status;
    pub fn cvl_post_get(caller: *mut Caller, name: *const u8, length: usize) -> Status;
    pub fn cvl_prepare(caller: *mut Caller, line: *const u8, length: usize, number: *mut u64) -> Status;
    pub fn cvl_post_prepared(caller: *mut Caller, number: u64) -> Status;
    pub fn cvl_post_prepared_block(caller: *mut Caller, numbers: *const u64, count: usize) -> Status;
    pub fn cvl_begin(caller: *mut Caller, line: *const u8, length: usize, answer: *mut Answer) -> Status;
    pub fn cvl_begin_prepared(caller: *mut Caller, number: u64, answer: *mut Answer) -> Status;
    pub fn cvl_serve(caller: *mut Caller, served: *mut Served) -> Status;
    pub fn cvl_poll(caller: *mut Caller, answer: *mut Answer) -> Status;
    pub fn cvl_step(caller: *mut Caller, answer: *mut Answer) -> Status;
    pub fn cvl_reply(caller: *mut Caller, number: u64, answer: *mut Answer) -> Status;
    pub fn cvl_ints_at(caller: *mut Caller, number: u64, items: *mut *const i64) -> u64;
    pub fn cvl_bools_at(caller: *mut Caller, number: u64, items: *mut *const bool) -> u64;
    pub fn cvl_lengths(caller: *mut Caller, number: u64, lengths: *mut usize, count: usize) -> u64;
    pub fn cvl_text(caller: *mut Caller, number: u64, text: *mut u8, room: usize, length: *mut u64) -> Status;
    pub fn cvl_look(caller: *mut Caller) -> u64;
    pub fn cvl_close(caller: *mut Caller, closed: *mut Closed) -> Status;
}
