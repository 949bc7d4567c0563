//! The calls of bindings/c/rbbank.h, in its order. bindings/declarations.py compares them with the library's exports.
use std::ffi::c_void;

/// What C keeps of a bank or of a site: null to begin with, and never looked into.
#[repr(C)]
pub struct Handle {
    at: *mut c_void,
}

/// What a call on a journal's file is: write the bytes at a place, cut the file, wait for the disk, or keep the bytes.
pub const CALL_WRITE: i32 = 1;
pub const CALL_CUT: i32 = 2;
pub const CALL_SYNC: i32 = 3;
pub const CALL_KEEP: i32 = 6;

impl Handle {
    /// A handle of nothing.
    pub const NONE: Handle = Handle {
        at: std::ptr::null_mut(),
    };
}

extern "C" {
    pub fn rbbank_version(out: *mut u8, capacity: usize) -> usize;
    pub fn rbbank_error(
        kind: u8,
        config: *const u8,
        config_length: usize,
        line: *const u8,
        length: usize,
        out: *mut u8,
        capacity: usize,
    ) -> usize;
    pub fn rbbank_open(bank: *mut Handle, config: *const u8, length: usize) -> i32;
    pub fn rbbank_answer(bank: *mut Handle, line: *const u8, length: usize) -> i32;
    pub fn rbbank_reply(bank: *mut Handle, out: *mut u8, capacity: usize) -> usize;
    pub fn rbbank_close(bank: *mut Handle);
    pub fn rbbank_site_open(site: *mut Handle, me: u8, config: *const u8, length: usize) -> i32;
    pub fn rbbank_site_answer(site: *mut Handle, line: *const u8, length: usize) -> i32;
    pub fn rbbank_site_reply(site: *mut Handle, out: *mut u8, capacity: usize) -> usize;
    pub fn rbbank_site_entries(site: *mut Handle, out: *mut u8, capacity: usize) -> usize;
    pub fn rbbank_site_send(
        site: *mut Handle,
        index: usize,
        out: *mut u8,
        capacity: usize,
        length: *mut usize,
        to: &mut u8,
    ) -> i32;
    pub fn rbbank_site_replay(site: *mut Handle, line: *const u8, length: usize) -> i32;
    pub fn rbbank_site_close(site: *mut Handle);
    pub fn rbbank_journal_open(
        journal: *mut Handle,
        me: u8,
        resend: usize,
        config: *const u8,
        length: usize,
        file: *const u8,
        file_length: usize,
        number: *mut u64,
    ) -> i32;
    pub fn rbbank_journal_answer(
        journal: *mut Handle,
        number: usize,
        line: *const u8,
        length: usize,
    ) -> i32;
    pub fn rbbank_journal_call(
        journal: *mut Handle,
        out: *mut u8,
        capacity: usize,
        length: *mut usize,
        at: *mut u64,
    ) -> i32;
    pub fn rbbank_journal_done(journal: *mut Handle, made: u8) -> i32;
    pub fn rbbank_journal_reply(journal: *mut Handle, out: *mut u8, capacity: usize) -> usize;
    pub fn rbbank_journal_send(
        journal: *mut Handle,
        index: usize,
        out: *mut u8,
        capacity: usize,
        length: *mut usize,
        to: &mut u8,
    ) -> i32;
    pub fn rbbank_journal_close(journal: *mut Handle);
    pub fn rbbank_script(
        input: *const u8,
        length: usize,
        out: *mut u8,
        capacity: usize,
        written: *mut usize,
        number: *mut u64,
    ) -> i32;
    pub fn rbbank_audit(
        input: *const u8,
        length: usize,
        out: *mut u8,
        capacity: usize,
        written: *mut usize,
        number: *mut u64,
    ) -> i32;
    pub fn rbbank_migrate(
        input: *const u8,
        length: usize,
        out: *mut u8,
        capacity: usize,
        written: *mut usize,
        number: *mut u64,
    ) -> i32;
    pub fn rbbank_close_books(
        sites: u8,
        names: *const u8,
        names_length: usize,
        journals: *const u8,
        journals_length: usize,
        lengths: *const usize,
        count: usize,
        out: *mut u8,
        capacity: usize,
        written: *mut usize,
        number: *mut u64,
        journal: *mut u64,
    ) -> i32;
}
