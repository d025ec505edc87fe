//! The value that the runs write, its codecs, and the ten lines by which a client is recorded.

use bytes::Bytes;
use object_store::path::Path;
use object_store::ObjectStore;
use slatedb_txn_obj::object_store::ObjectStoreSequencedStorageProtocol;
use slatedb_txn_obj::ObjectCodec;
use slatedb_txn_obj_recorder::{digested, plain, prefixed, Object, Recorded, Recorder, Telling};
use std::sync::Arc;

pub type Protocol = ObjectStoreSequencedStorageProtocol<Record>;
type Decoded = Result<Record, Box<dyn std::error::Error + Send + Sync>>;

#[derive(Clone, Copy, Debug, PartialEq, Eq)]
pub struct Record {
    pub epoch: u64,
    pub payload: u64,
}

pub fn record(epoch: u64, payload: u64) -> Record {
    Record { epoch, payload }
}

pub fn get_epoch(it: &Record) -> u64 {
    it.epoch
}

pub fn set_epoch(it: &mut Record, epoch: u64) {
    it.epoch = epoch;
}

/// A record as text: its epoch, a colon, its payload.
#[derive(Clone, Copy)]
pub struct Text;

impl ObjectCodec<Record> for Text {
    fn encode(&self, value: &Record) -> Bytes {
        Bytes::from(format!("{}:{}", value.epoch, value.payload))
    }

    fn decode(&self, bytes: &Bytes) -> Decoded {
        let (epoch, payload) = std::str::from_utf8(bytes)?.split_once(':').ok_or("no colon")?;
        Ok(record(epoch.parse()?, payload.parse()?))
    }
}

/// A record as bytes that are no text: eight of the epoch, eight of the payload.
#[derive(Clone, Copy)]
pub struct Binary;

impl ObjectCodec<Record> for Binary {
    fn encode(&self, value: &Record) -> Bytes {
        [value.epoch.to_be_bytes(), value.payload.to_be_bytes()].concat().into()
    }

    fn decode(&self, bytes: &Bytes) -> Decoded {
        let number = |at: usize| Ok::<_, Box<dyn std::error::Error + Send + Sync>>(u64::from_be_bytes(bytes.get(at..at + 8).ok_or("too short")?.try_into()?));
        Ok(record(number(0)?, number(8)?))
    }
}

/// How a client's values are written and told.
#[derive(Clone, Copy, PartialEq)]
pub enum Form {
    Text,
    Binary,
    Digests,
}

/// A client: the object of this name below a root, recorded in a file.
pub struct Opened<'a> {
    pub root: &'a Path,
    pub store: Arc<dyn ObjectStore>,
    pub name: &'a str,
    pub diary: &'a str,
    pub client: u64,
}

impl Opened<'_> {
    /// The ten lines.
    fn with(self, codec: impl ObjectCodec<Record> + Copy + 'static, telling: Telling) -> Arc<Recorded<Record>> {
        let recorder = Recorder::new(self.diary, self.client, Object::new(self.root, self.name, "val"), telling).expect("a recording");
        let recorder = if by_time() { recorder.by_time() } else { recorder };
        let store = recorder.store(self.store);
        let protocol = Arc::new(Protocol::new(self.root, store, self.name, "val", Box::new(codec)));
        recorder.object(protocol, codec)
    }

    pub fn recorded(self, form: Form) -> Arc<Recorded<Record>> {
        match form {
            Form::Text => self.with(Text, plain()),
            Form::Binary => self.with(Binary, prefixed(Binary, get_epoch)),
            Form::Digests => self.with(Binary, digested(Binary, get_epoch)),
        }
    }
}

/// Whether versions are told by the times of their files, beside `txnobj` on one folder.
pub fn by_time() -> bool {
    std::env::var("BY_TIME").is_ok()
}

pub fn block_on<A>(work: impl std::future::Future<Output = A>) -> A {
    tokio::runtime::Builder::new_current_thread().enable_time().build().expect("a runtime").block_on(work)
}
