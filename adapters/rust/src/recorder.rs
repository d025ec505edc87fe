//! A client's recorder: its calls, one at a time, and the names of what they are told.

use crate::rows::{now, refused, shown, Name, Object, Rows};
use crate::store::Stored;
use crate::telling::Telling;
use crate::Recorded;
use bytes::Bytes;
use object_store::ObjectStore;
use slatedb_txn_obj::{ObjectCodec, SequencedStorageProtocol, TransactionalObjectError};
use std::collections::HashMap;
use std::future::Future;
use std::io;
use std::path::Path;
use std::sync::atomic::{AtomicU64, Ordering};
use std::sync::{Arc, Mutex, MutexGuard, PoisonError};

pub(crate) type Answer<A> = Result<A, TransactionalObjectError>;

struct Shared {
    object: Object,
    by_time: bool,
    telling: Telling,
    rows: Mutex<Rows>,
    views: AtomicU64,
    /// The boundary that each tag is of.
    boundaries: Mutex<HashMap<String, u64>>,
    /// One call at a time.
    turn: futures::lock::Mutex<()>,
}

/// A client's recording. Its clones are of the same client.
#[derive(Clone)]
pub struct Recorder(Arc<Shared>);

fn locked<A>(it: &Mutex<A>) -> MutexGuard<'_, A> {
    it.lock().unwrap_or_else(PoisonError::into_inner)
}

/// An update that is refused so before it asks the store has another id than its object, or an invariant failed.
fn is_early(error: &TransactionalObjectError) -> bool {
    matches!(error, TransactionalObjectError::ObjectVersionExists | TransactionalObjectError::CallbackError(_))
}

impl Recorder {
    /// A recording of the client of this number, at the end of a file. No other client of the object has the number, in all runs. What
    /// follows the last line feed is taken off, as a client leaves it that was killed.
    ///
    /// # Errors
    ///
    /// Where the file cannot be read and written, another process writes it, or the machine does not say which of its starts this is. Once
    /// it is made a row that cannot be written panics.
    pub fn new(file: impl AsRef<Path>, client: u64, object: Object, telling: Telling) -> io::Result<Self> {
        let rows = Mutex::new(Rows::new(file.as_ref(), &object, client)?);
        let (views, boundaries, turn) = (AtomicU64::new(0), Mutex::default(), futures::lock::Mutex::new(()));
        Ok(Self(Arc::new(Shared { object, by_time: false, telling, rows, views, boundaries, turn })))
    }

    /// Tells a version by the time of its file, as `txnobj` does: for recordings of both on one folder. Each put is followed by a get,
    /// which is not recorded. It is to be asked before the store and the object are made; later it does nothing.
    pub fn by_time(mut self) -> Self {
        if let Some(shared) = Arc::get_mut(&mut self.0) {
            shared.by_time = true;
        }
        self
    }

    /// The store, of which each call is recorded that a recorded call makes.
    pub fn store(&self, store: Arc<dyn ObjectStore>) -> Arc<dyn ObjectStore> {
        Arc::new(Stored { recorder: self.clone(), store })
    }

    /// The object of a protocol over that store.
    pub fn object<T: Send + Sync>(
        &self,
        protocol: Arc<dyn SequencedStorageProtocol<T>>,
        codec: impl ObjectCodec<T> + 'static,
    ) -> Arc<Recorded<T>> {
        Arc::new(Recorded { recorder: self.clone(), protocol, codec: Box::new(codec) })
    }

    pub(crate) fn is_by_time(&self) -> bool {
        self.0.by_time
    }

    pub(crate) fn files(&self) -> &Object {
        &self.0.object
    }

    pub(crate) fn rows(&self) -> MutexGuard<'_, Rows> {
        locked(&self.0.rows)
    }

    /// The bytes of a version or of the boundary, as they are told.
    pub(crate) fn told(&self, name: Name, bytes: &Bytes) -> Vec<u8> {
        match name {
            Name::Version(_) => self.0.telling.bytes(bytes),
            Name::Boundary => bytes.to_vec(),
        }
    }

    /// The size of a version, as it is told.
    pub(crate) fn size(&self, size: u64) -> u64 {
        self.0.telling.size(size)
    }

    /// The words of a value that has these bytes.
    pub(crate) fn words(&self, bytes: &Bytes) -> String {
        shown(&self.0.telling.bytes(bytes))
    }

    /// The token of a version is a hash (FNV-1a) of its name and its tag; that of the boundary the number that it says, as in `txnobj`.
    pub(crate) fn token(&self, name: Name, tag: Option<&str>, bytes: Option<&Bytes>) -> u64 {
        let tag = tag.unwrap_or_default();
        if let Name::Boundary = name {
            let mut boundaries = locked(&self.0.boundaries);
            let said = bytes.and_then(|bytes| std::str::from_utf8(bytes).ok()?.trim().parse().ok());
            if let Some(number) = said {
                boundaries.insert(tag.into(), number);
            }
            return boundaries.get(tag).copied().unwrap_or(0);
        }
        let step = |hash: u64, byte: u8| (hash ^ u64::from(byte)).wrapping_mul(0x0100_0000_01b3);
        format!("{name} {tag}").bytes().fold(0xcbf2_9ce4_8422_2325, step)
    }

    pub(crate) fn next_view(&self) -> u64 {
        self.0.views.fetch_add(1, Ordering::SeqCst) + 1
    }

    pub(crate) fn now(&self) -> u64 {
        now()
    }

    /// Makes a call, and records it: with its words, and its answer in the words of `said`. A call that may be `silent` and asks nothing of
    /// the store is not recorded: it was refused before the protocol had a part in it.
    pub(crate) async fn call<A>(
        &self,
        words: String,
        silent: bool,
        work: impl Future<Output = Answer<A>>,
        said: impl FnOnce(&A) -> String,
    ) -> Answer<A> {
        let _turn = self.0.turn.lock().await;
        self.rows().open(words);
        let open = Open(self);
        let answer = work.await;
        let words = answer.as_ref().map(said);
        let mut rows = self.rows();
        match &words {
            // The work was dropped at a store call.
            Err(TransactionalObjectError::ObjectUpdateTimeout { .. }) => {}
            Err(error) if silent && rows.is_silent() && is_early(error) => rows.forget(),
            Err(error) => rows.answer(refused(error)),
            Ok(words) => rows.answer(words),
        }
        drop(rows);
        drop(open);
        answer
    }
}

/// A call that may be dropped before its answer.
struct Open<'a>(&'a Recorder);

impl Drop for Open<'_> {
    fn drop(&mut self) {
        self.0.rows().drop_call();
    }
}
