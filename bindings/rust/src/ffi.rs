//! The library's functions that are used here, as `txnobj.h` has them.

#[repr(C)]
pub(crate) struct Handle {
    at: *mut u8,
    made: bool,
}

impl Handle {
    /// A handle that holds nothing.
    pub(crate) const NOTHING: Handle = Handle { at: std::ptr::null_mut(), made: false };
}

#[repr(C)]
#[derive(Default)]
pub(crate) struct Asked {
    pub kind: u8,
    pub mode: u8,
    pub version: u64,
    pub token: u64,
    pub limit: u64,
    pub len: usize,
}

#[repr(C)]
#[derive(Default)]
pub(crate) struct Answered {
    pub kind: u8,
    pub refusal: u8,
    pub view: u64,
    pub id: u64,
    pub epoch: u64,
    pub holder: u64,
    pub len: usize,
}

pub(crate) const OK: u8 = 0;
pub(crate) const UNKNOWN_BASE: u8 = 3;
pub(crate) const BOUNDARY_TOO_HIGH: u8 = 4;

pub(crate) const ASKS_NOTHING: u8 = 0;
pub(crate) const ASKS_LOOK: u8 = 1;
pub(crate) const ASKS_PUT: u8 = 2;
pub(crate) const ASKS_GET: u8 = 3;
pub(crate) const ASKS_LIST: u8 = 4;

pub(crate) const CREATE: u8 = 0;
pub(crate) const UPDATE: u8 = 1;

pub(crate) const NOT_FOUND: u8 = 1;
pub(crate) const ALREADY_EXISTS: u8 = 2;
pub(crate) const PRECONDITION: u8 = 3;
pub(crate) const NOT_MODIFIED: u8 = 4;
pub(crate) const FAILED: u8 = 5;

pub(crate) const WROTE: u8 = 1;
pub(crate) const READ: u8 = 2;
pub(crate) const READ_NONE: u8 = 3;
pub(crate) const VALUE: u8 = 4;
pub(crate) const VALUE_NONE: u8 = 5;
pub(crate) const IDS: u8 = 6;
pub(crate) const DONE: u8 = 7;

extern "C" {
    pub(crate) fn txnobj_open(client: *mut Handle, number: u64, page: u64) -> u8;
    pub(crate) fn txnobj_close(client: *mut Handle);
    pub(crate) fn txnobj_read(client: *mut Handle, op: *mut u64) -> u8;
    pub(crate) fn txnobj_read_version(client: *mut Handle, id: u64, op: *mut u64) -> u8;
    pub(crate) fn txnobj_list(client: *mut Handle, from_kind: u8, from: u64, to_kind: u8, to: u64, op: *mut u64) -> u8;
    pub(crate) fn txnobj_delete(client: *mut Handle, id: u64, op: *mut u64) -> u8;
    pub(crate) fn txnobj_check(client: *mut Handle, id: u64, op: *mut u64) -> u8;
    pub(crate) fn txnobj_advance(client: *mut Handle, to: u64, op: *mut u64) -> u8;
    pub(crate) fn txnobj_write(client: *mut Handle, base: u64, epoch: u64, bytes: *const u8, len: usize, op: *mut u64) -> u8;
    pub(crate) fn txnobj_write_unchecked(client: *mut Handle, base: u64, epoch: u64, bytes: *const u8, len: usize, op: *mut u64) -> u8;
    pub(crate) fn txnobj_read_latest_unchecked(client: *mut Handle, op: *mut u64) -> u8;
    pub(crate) fn txnobj_delete_unchecked(client: *mut Handle, id: u64, op: *mut u64) -> u8;
    pub(crate) fn txnobj_asked(client: *mut Handle, op: u64, asked: *mut Asked) -> u8;
    pub(crate) fn txnobj_asked_bytes(client: *mut Handle, op: u64, out: *mut u8, len: usize) -> bool;
    pub(crate) fn txnobj_look(client: *mut Handle, op: u64) -> u8;
    pub(crate) fn txnobj_put(client: *mut Handle, op: u64, error: u8, token: u64) -> u8;
    pub(crate) fn txnobj_got(client: *mut Handle, op: u64, error: u8, token: u64, bytes: *const u8, len: usize) -> u8;
    pub(crate) fn txnobj_listed(client: *mut Handle, op: u64, error: u8, versions: *const u64, n: usize, more: bool) -> u8;
    pub(crate) fn txnobj_deleted(client: *mut Handle, op: u64, error: u8) -> u8;
    pub(crate) fn txnobj_give_up(client: *mut Handle, op: u64) -> u8;
    pub(crate) fn txnobj_answered(client: *mut Handle, op: u64, answered: *mut Answered) -> u8;
    pub(crate) fn txnobj_answered_bytes(client: *mut Handle, op: u64, out: *mut u8, len: usize) -> bool;
    pub(crate) fn txnobj_answered_ids(client: *mut Handle, op: u64, out: *mut u64, n: usize) -> bool;
    pub(crate) fn txnobj_end(client: *mut Handle, op: u64) -> u8;
    pub(crate) fn txnobj_forget(client: *mut Handle, last: usize) -> u8;
}
