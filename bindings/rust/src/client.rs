//! A client of the library, as safe code has it: calls are begun, asked what they want, and told what came of it.

use crate::ffi;
use bytes::Bytes;
use std::ops::Bound;
use std::sync::{Mutex, MutexGuard, PoisonError};

/// How many versions a page of a listing has at most.
const PAGE: u64 = 1000;
/// Of how many of the last answers a client keeps the ids.
const LAST: usize = 128;
/// What stands before the bytes of a value in the library's files: an epoch, which is the value's own matter here, and a colon.
/// The files of the store do not have it.
const FRONT: &[u8] = b"0:";

/// A call.
#[derive(Clone)]
pub(crate) enum Call {
    Read,
    ReadVersion(u64),
    List(Bound<u64>, Bound<u64>),
    Write(u64, Bytes),
    WriteUnchecked(u64, Bytes),
    Delete(u64),
    Check(u64),
    Advance(u64),
    /// The two that test no boundary.
    ReadLatestUnchecked,
    DeleteUnchecked(u64),
}

/// Why a call does not begin.
#[derive(Clone, Copy, PartialEq, Eq)]
pub(crate) enum Refused {
    /// No checked call of this client answered the base.
    UnknownBase,
    /// The boundary is not below an id that a checked call of this client answered.
    BoundaryTooHigh,
    /// Memory is wanting.
    NoMemory,
}

/// What a put asks of the file that stands there.
pub(crate) enum Mode {
    Create,
    Update(u64),
    Overwrite,
}

/// What an operation asks for. File 0 is the boundary's.
pub(crate) enum Asked {
    Nothing,
    Look,
    Put(u64, Mode, Bytes),
    Get(u64, Option<u64>),
    /// The versions after one, at most so many.
    List(u64, u64),
    Delete(u64),
}

/// Why a store call did not do what it was asked.
#[derive(Clone, Copy)]
pub(crate) enum Fault {
    NotFound,
    AlreadyExists,
    Precondition,
    NotModified,
    Failed,
}

/// What came of a store call.
pub(crate) enum Reply {
    Put(Result<u64, Fault>),
    Got(Result<(u64, Bytes), Fault>),
    /// Ids, and whether more follow.
    Listed(Result<(Vec<u64>, bool), Fault>),
    Deleted(Result<(), Fault>),
}

/// How an operation ended.
pub(crate) enum Answer {
    Wrote(u64),
    Read(Option<(u64, Bytes)>),
    Value(Option<Bytes>),
    Ids(Vec<u64>),
    Done,
    Refused(u8),
}

/// A client's handle.
struct Held(ffi::Handle);

// SAFETY: the library's clients are bound to no thread, and this one is used under a lock.
unsafe impl Send for Held {}

impl Drop for Held {
    fn drop(&mut self) {
        // SAFETY: the handle is one that the library left.
        unsafe { ffi::txnobj_close(&mut self.0) }
    }
}

/// A client.
pub(crate) struct Client(Mutex<Held>);

impl Client {
    /// A client of this number, at least 1.
    pub(crate) fn new(number: u64) -> Client {
        let mut held = Held(ffi::Handle::NOTHING);
        // SAFETY: the handle holds nothing.
        let code = unsafe { ffi::txnobj_open(&mut held.0, number, PAGE) };
        assert_eq!(code, ffi::OK, "no memory for a client");
        Client(Mutex::new(held))
    }

    fn held(&self) -> MutexGuard<'_, Held> {
        self.0.lock().unwrap_or_else(PoisonError::into_inner)
    }

    /// Begins a call.
    pub(crate) fn begin(&self, call: &Call) -> Result<Operation<'_>, Refused> {
        let (mut held, mut op) = (self.held(), 0);
        let (client, out) = (&mut held.0 as *mut ffi::Handle, &mut op as *mut u64);
        // SAFETY: the handle is the library's, and the bytes are valid for their length.
        let code = unsafe {
            match call {
                Call::Read => ffi::txnobj_read(client, out),
                Call::ReadVersion(id) => ffi::txnobj_read_version(client, *id, out),
                Call::List(from, to) => {
                    let ((from_kind, from), (to_kind, to)) = (bound(from), bound(to));
                    ffi::txnobj_list(client, from_kind, from, to_kind, to, out)
                }
                Call::Write(base, bytes) => ffi::txnobj_write(client, *base, 0, bytes.as_ptr(), bytes.len(), out),
                Call::WriteUnchecked(base, bytes) => {
                    ffi::txnobj_write_unchecked(client, *base, 0, bytes.as_ptr(), bytes.len(), out)
                }
                Call::Delete(id) => ffi::txnobj_delete(client, *id, out),
                Call::Check(id) => ffi::txnobj_check(client, *id, out),
                Call::Advance(to) => ffi::txnobj_advance(client, *to, out),
                Call::ReadLatestUnchecked => ffi::txnobj_read_latest_unchecked(client, out),
                Call::DeleteUnchecked(id) => ffi::txnobj_delete_unchecked(client, *id, out),
            }
        };
        match code {
            ffi::OK => Ok(Operation { client: self, op }),
            ffi::UNKNOWN_BASE => Err(Refused::UnknownBase),
            ffi::BOUNDARY_TOO_HIGH => Err(Refused::BoundaryTooHigh),
            _ => Err(Refused::NoMemory),
        }
    }
}

/// An operation that was begun. One that is dropped before its answer is given up: what it asked for may still reach the store.
pub(crate) struct Operation<'a> {
    client: &'a Client,
    op: u64,
}

impl Drop for Operation<'_> {
    fn drop(&mut self) {
        let mut held = self.client.held();
        // SAFETY: the handle is the library's.
        unsafe {
            if ffi::txnobj_end(&mut held.0, self.op) != ffi::OK {
                ffi::txnobj_give_up(&mut held.0, self.op);
            }
            ffi::txnobj_forget(&mut held.0, LAST);
        }
    }
}

impl Operation<'_> {
    /// What it asks for.
    pub(crate) fn asked(&self) -> Asked {
        let (mut held, mut asked) = (self.client.held(), ffi::Asked::default());
        // SAFETY: the handle is the library's.
        let code = unsafe { ffi::txnobj_asked(&mut held.0, self.op, &mut asked) };
        assert_eq!(code, ffi::OK);
        match asked.kind {
            ffi::ASKS_NOTHING => Asked::Nothing,
            ffi::ASKS_LOOK => Asked::Look,
            ffi::ASKS_PUT => {
                let mut bytes = vec![0; asked.len];
                // SAFETY: the buffer is as long as is said.
                let is_told = unsafe { ffi::txnobj_asked_bytes(&mut held.0, self.op, bytes.as_mut_ptr(), asked.len) };
                assert!(is_told);
                let bytes = Bytes::from(bytes);
                let bytes = if asked.version == 0 { bytes } else { bytes.slice(FRONT.len()..) };
                let mode = match asked.mode {
                    ffi::CREATE => Mode::Create,
                    ffi::UPDATE => Mode::Update(asked.token),
                    _ => Mode::Overwrite,
                };
                Asked::Put(asked.version, mode, bytes)
            }
            ffi::ASKS_GET => Asked::Get(asked.version, (asked.mode == 1).then_some(asked.token)),
            ffi::ASKS_LIST => Asked::List(asked.version, asked.limit),
            _ => Asked::Delete(asked.version),
        }
    }

    /// It looks at what its client keeps, as it asks to.
    pub(crate) fn look(&self) {
        let mut held = self.client.held();
        // SAFETY: the handle is the library's.
        let code = unsafe { ffi::txnobj_look(&mut held.0, self.op) };
        assert_eq!(code, ffi::OK, "no memory");
    }

    /// It takes what came of the store call that it asked for, of this file.
    pub(crate) fn take(&self, file: u64, reply: Reply) {
        let mut held = self.client.held();
        let (client, op) = (&mut held.0 as *mut ffi::Handle, self.op);
        // SAFETY: the handle is the library's, and bytes and ids are valid for their length.
        let code = unsafe {
            match reply {
                Reply::Put(Ok(token)) => ffi::txnobj_put(client, op, 0, token),
                Reply::Put(Err(fault)) => ffi::txnobj_put(client, op, number(fault), 0),
                Reply::Got(Ok((token, bytes))) => {
                    let whole = if file == 0 { bytes } else { [FRONT, &bytes].concat().into() };
                    ffi::txnobj_got(client, op, 0, token, whole.as_ptr(), whole.len())
                }
                Reply::Got(Err(fault)) => ffi::txnobj_got(client, op, number(fault), 0, FRONT.as_ptr(), 0),
                Reply::Listed(Ok((ids, more))) => ffi::txnobj_listed(client, op, 0, ids.as_ptr(), ids.len(), more),
                Reply::Listed(Err(fault)) => ffi::txnobj_listed(client, op, number(fault), [0].as_ptr(), 0, false),
                Reply::Deleted(Ok(())) => ffi::txnobj_deleted(client, op, 0),
                Reply::Deleted(Err(fault)) => ffi::txnobj_deleted(client, op, number(fault)),
            }
        };
        assert_eq!(code, ffi::OK, "no memory");
    }

    /// How it ended, where it asks for nothing.
    pub(crate) fn answer(&self) -> Answer {
        let (mut held, mut told) = (self.client.held(), ffi::Answered::default());
        // SAFETY: the handle is the library's.
        let code = unsafe { ffi::txnobj_answered(&mut held.0, self.op, &mut told) };
        assert_eq!(code, ffi::OK);
        let mut bytes = || {
            let mut bytes = vec![0; told.len];
            // SAFETY: the buffer is as long as is said.
            let is_told = unsafe { ffi::txnobj_answered_bytes(&mut held.0, self.op, bytes.as_mut_ptr(), told.len) };
            assert!(is_told);
            Bytes::from(bytes)
        };
        match told.kind {
            ffi::WROTE => Answer::Wrote(told.id),
            ffi::READ => Answer::Read(Some((told.id, bytes()))),
            ffi::READ_NONE => Answer::Read(None),
            ffi::VALUE => Answer::Value(Some(bytes())),
            ffi::VALUE_NONE => Answer::Value(None),
            ffi::IDS => {
                let mut ids = vec![0; told.len];
                // SAFETY: the buffer is as long as is said.
                let is_told = unsafe { ffi::txnobj_answered_ids(&mut held.0, self.op, ids.as_mut_ptr(), told.len) };
                assert!(is_told);
                Answer::Ids(ids)
            }
            ffi::DONE => Answer::Done,
            _ => Answer::Refused(told.refusal),
        }
    }
}

fn bound(bound: &Bound<u64>) -> (u8, u64) {
    match bound {
        Bound::Unbounded => (0, 0),
        Bound::Included(id) => (1, *id),
        Bound::Excluded(id) => (2, *id),
    }
}

fn number(fault: Fault) -> u8 {
    match fault {
        Fault::NotFound => ffi::NOT_FOUND,
        Fault::AlreadyExists => ffi::ALREADY_EXISTS,
        Fault::Precondition => ffi::PRECONDITION,
        Fault::NotModified => ffi::NOT_MODIFIED,
        Fault::Failed => ffi::FAILED,
    }
}
