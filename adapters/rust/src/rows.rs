//! The rows of a recording, and what they call an object's files.

use object_store::path::Path;
use slatedb_txn_obj::TransactionalObjectError;
use std::fmt;
use std::fs::{File, OpenOptions};
use std::io::{self, Read, Seek, Write};
use std::time::{SystemTime, UNIX_EPOCH};

/// The most files of a page of a listing, as in `txnobj`: all recordings of an audit have the same.
pub(crate) const PAGE: usize = 1000;
/// In which file Linux says which of its starts this is, which names its clock.
const START: &str = "/proc/sys/kernel/random/boot_id";

/// How a call is answered whose store call failed.
const FAILED: &str = "refused 2 ObjectStoreError";

/// Where an object's files lie.
#[derive(Clone, Debug)]
pub struct Object {
    name: String,
    folder: Path,
    boundary: Path,
    suffix: String,
}

/// What a path names, as all recordings call it, wherever the object lies.
#[derive(Clone, Copy)]
pub(crate) enum Name {
    Version(u64),
    Boundary,
}

impl fmt::Display for Name {
    fn fmt(&self, f: &mut fmt::Formatter<'_>) -> fmt::Result {
        match self {
            Name::Version(id) => write!(f, "root/test/{id:020}.val"),
            Name::Boundary => f.write_str("root/gc/test.boundary"),
        }
    }
}

impl Object {
    /// The object of a protocol that is made with this `root_path`, `subdir` and `file_suffix`.
    pub fn new(root: &Path, subdir: &str, suffix: &str) -> Self {
        Self {
            name: format!("{subdir}.{suffix}"),
            folder: root.clone().join(subdir),
            boundary: root.clone().join("gc").join(format!("{subdir}.boundary")),
            suffix: suffix.into(),
        }
    }

    pub(crate) fn name_of(&self, path: &Path) -> Option<Name> {
        if *path == self.boundary {
            return Some(Name::Boundary);
        }
        let digits = path.filename()?.strip_suffix(&self.suffix)?.strip_suffix('.')?;
        let id = digits.parse().ok()?;
        let version = self.folder.clone().join(format!("{id:020}.{}", self.suffix));
        (*path == version).then_some(Name::Version(id))
    }

    pub(crate) fn is_folder(&self, prefix: Option<&Path>) -> bool {
        prefix == Some(&self.folder)
    }
}

/// Bytes in hex digits.
pub(crate) fn hex(bytes: &[u8]) -> String {
    bytes.iter().map(|byte| format!("{byte:02x}")).collect()
}

/// A value in a row: each byte that is no graphic ASCII character, and `%`, as `%XX`.
pub(crate) fn shown(bytes: &[u8]) -> String {
    let show = |byte: &u8| match byte {
        b'!'..=b'~' if *byte != b'%' => (*byte as char).to_string(),
        _ => format!("%{byte:02X}"),
    };
    bytes.iter().map(show).collect()
}

/// A refusal in a row.
pub(crate) fn refused(error: &TransactionalObjectError) -> &'static str {
    use TransactionalObjectError::*;
    match error {
        IoError(_) => "refused 1 IoError",
        ObjectStoreError(_) => FAILED,
        ObjectUpdateTimeout { .. } => "refused 3 ObjectUpdateTimeout",
        LatestRecordMissing => "refused 4 LatestRecordMissing",
        ObjectVersionExists => "refused 5 ObjectVersionExists",
        Fenced => "refused 6 Fenced",
        InvalidObjectState => "refused 7 InvalidObjectState",
        CallbackError(_) => "refused 8 CallbackError",
        _ => "refused 0 Unknown",
    }
}

/// The nanoseconds of the machine's clock that only rises, which all of its processes read.
pub(crate) fn now() -> u64 {
    let mut at = libc::timespec { tv_sec: 0, tv_nsec: 0 };
    // SAFETY: `at` is a timespec of our own, which the call writes.
    unsafe { libc::clock_gettime(libc::CLOCK_MONOTONIC, &mut at) };
    at.tv_sec as u64 * 1_000_000_000 + at.tv_nsec as u64
}

/// The call that is under way.
struct Call {
    words: String,
    /// It asked the store or was answered, so it stands in the recording.
    is_begun: bool,
    /// It has asked, and has no reply.
    asks: bool,
}

/// The file, and the call that its last rows are of.
pub(crate) struct Rows {
    file: File,
    begun: u64,
    call: Option<Call>,
}

/// Takes off what follows the last whole row, as a client leaves it that was killed.
fn cut_off(file: &mut File) -> io::Result<()> {
    let mut bytes = Vec::new();
    file.read_to_end(&mut bytes)?;
    let whole = bytes.iter().rposition(|byte| *byte == b'\n').map_or(0, |at| at + 1);
    if whole < bytes.len() {
        file.set_len(whole as u64)?;
    }
    file.seek(io::SeekFrom::End(0)).map(drop)
}

impl Rows {
    /// Begins the recording of a client at the end of a file, which no other process writes.
    pub fn new(path: &std::path::Path, object: &Object, client: u64) -> io::Result<Self> {
        let mut file = OpenOptions::new().read(true).append(true).create(true).open(path)?;
        file.try_lock()?;
        cut_off(&mut file)?;
        let clock = std::fs::read_to_string(START)?;
        let since = SystemTime::now().duration_since(UNIX_EPOCH).map_err(io::Error::other)?;
        let ahead = (since.as_nanos() as u64).saturating_sub(now());
        let source = format!("of {} clock {} ahead {ahead}", object.name, clock.trim());
        file.write_all(format!("{source}\nclient {client} page {PAGE}\n").as_bytes())?;
        Ok(Self { file, begun: 0, call: None })
    }

    /// Adds a row, by one write. A recording that cannot go on is no recording, so this panics where it cannot.
    fn write(&mut self, row: &str) {
        self.file.write_all(format!("{row}\n").as_bytes()).expect("the recording can be written");
    }

    /// A call is under way from now on. It begins in the recording where it first asks the store, or is answered.
    pub fn open(&mut self, words: String) {
        self.call = Some(Call { words, is_begun: false, asks: false });
    }

    /// Whether the call under way asked nothing yet.
    pub fn is_silent(&self) -> bool {
        matches!(&self.call, Some(call) if !call.is_begun)
    }

    /// The call under way leaves nothing.
    pub fn forget(&mut self) {
        self.call = None;
    }

    fn begin(&mut self) -> bool {
        let Some(call) = &mut self.call else { return false };
        if !call.is_begun {
            call.is_begun = true;
            self.begun += 1;
            let row = format!("begin {} {}", self.begun, call.words);
            self.write(&row);
        }
        true
    }

    fn waits(&mut self, asks: bool) {
        if let Some(call) = &mut self.call {
            call.asks = asks;
        }
    }

    /// The call under way asks the store. False where none is.
    pub fn ask(&mut self, at: u64, request: &str) -> bool {
        if !self.begin() {
            return false;
        }
        self.write(&format!("ask {} {at} {request}", self.begun));
        self.waits(true);
        true
    }

    /// The store's reply, where it is one; else its call failed.
    pub fn reply(&mut self, at: u64, reply: Option<String>) {
        let op = self.begun;
        match reply {
            Some(reply) => self.write(&format!("reply {op} {at} {reply}")),
            None => self.write(&format!("failed {op} {at}")),
        }
        self.waits(false);
    }

    /// The call under way is answered; one that waits for the store was told that its call failed.
    pub fn answer(&mut self, words: &str) {
        self.begin();
        if matches!(&self.call, Some(call) if call.asks) {
            self.reply(now(), None);
        }
        self.write(&format!("answer {} {words}", self.begun));
        self.call = None;
    }

    /// The call under way, if one is, was dropped before its answer. What is known of one that waits for the store is what is known after
    /// a store call that failed.
    pub fn drop_call(&mut self) {
        match &self.call {
            Some(call) if call.asks => self.answer(FAILED),
            // The one panic of the crate: the stored epoch is below the holder's.
            Some(_) if std::thread::panicking() => self.answer(refused(&TransactionalObjectError::InvalidObjectState)),
            Some(call) if call.is_begun => self.write(&format!("giveup {}", self.begun)),
            _ => {}
        }
        self.call = None;
    }
}
