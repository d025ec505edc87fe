//! The protocol over an object store.

use crate::client::{Answer, Asked, Call, Client, Fault, Mode, Refused, Reply};
use crate::{BoundaryObject, MonotonicId, ObjectCodec, SequencedStorageProtocol, TransactionalObjectError};
use async_trait::async_trait;
use bytes::Bytes;
use futures::StreamExt;
use object_store::path::Path;
use object_store::{
    Error, GetOptions, ObjectMeta, ObjectStore, ObjectStoreExt, PutMode, PutOptions, PutPayload, UpdateVersion,
};
use slatedb_common::object_metadata::IdentifiedObjectMetadata;
use std::collections::BTreeMap;
use std::ops::Bound;
use std::sync::atomic::{AtomicU64, Ordering};
use std::sync::{Arc, Mutex, MutexGuard, PoisonError};
use std::time::{SystemTime, UNIX_EPOCH};

/// The refusals of the library, by their numbers.
const STORE_FAILED: u8 = 2;
const VERSION_EXISTS: u8 = 5;
const FENCED: u8 = 6;
/// How many states of the boundary's file are remembered, to name them to the store again.
const REMEMBERED: usize = 64;
/// The clients of one process have numbers of their own.
static CLIENTS: AtomicU64 = AtomicU64::new(0);

fn locked<T>(it: &Mutex<T>) -> MutexGuard<'_, T> {
    it.lock().unwrap_or_else(PoisonError::into_inner)
}

/// A number that no other client has: the nanoseconds since 1970, and how many clients the process had before.
fn number_of_client() -> u64 {
    let now = SystemTime::now().duration_since(UNIX_EPOCH).map_or(0, |time| time.as_nanos() as u64);
    (now + CLIENTS.fetch_add(1, Ordering::Relaxed)).max(1)
}

/// Numbers for the states of files, by the versions that the store names them by. The last are remembered.
#[derive(Default)]
struct Tokens {
    given: u64,
    known: BTreeMap<u64, UpdateVersion>,
}

impl Tokens {
    /// The number of a state. One that is remembered keeps its number.
    fn number(&mut self, version: UpdateVersion) -> u64 {
        if let Some((number, _)) = self.known.iter().find(|(_, known)| **known == version) {
            return *number;
        }
        self.given += 1;
        self.known.insert(self.given, version);
        if self.known.len() > REMEMBERED {
            self.known.pop_first();
        }
        self.given
    }

    /// The state of a number. One that was forgotten is no state of any file.
    fn version(&self, number: u64) -> UpdateVersion {
        let none = UpdateVersion { e_tag: Some(String::new()), version: None };
        self.known.get(&number).cloned().unwrap_or(none)
    }
}

/// The versions of an object as files of an object store, each below `<root>/<subdir>/` with its id in twenty digits and the
/// suffix as its name, beside the boundary's file `<root>/gc/<subdir>.boundary`.
///
/// A write has to be on a version that this protocol has told: where it was not told of that it reads the newest version first. A
/// boundary has to be below such an id; one that is not is `InvalidObjectState`.
pub struct ObjectStoreSequencedStorageProtocol<T> {
    object_store: Arc<dyn ObjectStore>,
    folder: Path,
    boundary_file: Path,
    suffix: &'static str,
    codec: Box<dyn ObjectCodec<T>>,
    /// A boundary of the caller's own, where there is one.
    boundary: Option<Arc<dyn BoundaryObject>>,
    client: Client,
    tokens: Mutex<Tokens>,
}

/// Why a store call gives a reply that tells no more, and the error, where nobody knows whether it took effect.
fn fault_of(error: Error) -> (Fault, Option<Error>) {
    match error {
        Error::NotFound { .. } => (Fault::NotFound, None),
        Error::AlreadyExists { .. } => (Fault::AlreadyExists, None),
        Error::Precondition { .. } => (Fault::Precondition, None),
        Error::NotModified { .. } => (Fault::NotModified, None),
        error => (Fault::Failed, Some(error)),
    }
}

/// What a call found beside its answer: why a store call failed, and what listings told of the files.
#[derive(Default)]
struct Found {
    failed: Option<Error>,
    metas: BTreeMap<u64, ObjectMeta>,
}

impl Found {
    fn fault(&mut self, error: Error) -> Fault {
        let (fault, failed) = fault_of(error);
        self.failed = failed;
        fault
    }
}

fn of_refusal(number: u8, found: Found) -> TransactionalObjectError {
    match (number, found.failed) {
        (STORE_FAILED, Some(error)) => error.into(),
        (VERSION_EXISTS, _) => TransactionalObjectError::ObjectVersionExists,
        (FENCED, _) => TransactionalObjectError::Fenced,
        _ => TransactionalObjectError::InvalidObjectState,
    }
}

impl<T> ObjectStoreSequencedStorageProtocol<T> {
    /// The object of this name below the root.
    pub fn new(
        root_path: &Path,
        object_store: Arc<dyn ObjectStore>,
        subdir: &str,
        file_suffix: &'static str,
        codec: Box<dyn ObjectCodec<T>>,
    ) -> Self {
        Self::make(root_path, object_store, subdir, file_suffix, codec, None)
    }

    /// The same with a boundary of the caller's own, of which no theorem speaks.
    pub fn new_with_boundary(
        root_path: &Path,
        object_store: Arc<dyn ObjectStore>,
        subdir: &str,
        file_suffix: &'static str,
        codec: Box<dyn ObjectCodec<T>>,
        boundary: Arc<dyn BoundaryObject>,
    ) -> Self {
        Self::make(root_path, object_store, subdir, file_suffix, codec, Some(boundary))
    }

    fn make(
        root: &Path,
        object_store: Arc<dyn ObjectStore>,
        subdir: &str,
        suffix: &'static str,
        codec: Box<dyn ObjectCodec<T>>,
        boundary: Option<Arc<dyn BoundaryObject>>,
    ) -> Self {
        Self {
            object_store,
            folder: root.clone().join(subdir),
            boundary_file: boundary_file(root, subdir),
            suffix,
            codec,
            boundary,
            client: Client::new(number_of_client()),
            tokens: Mutex::default(),
        }
    }

    fn path_of(&self, file: u64) -> Path {
        if file == 0 {
            return self.boundary_file.clone();
        }
        self.folder.clone().join(format!("{file:020}.{}", self.suffix))
    }

    fn id_of(&self, path: &Path) -> Option<u64> {
        let digits = path.filename()?.strip_suffix(self.suffix)?.strip_suffix('.')?;
        if digits.len() != 20 { None } else { digits.parse().ok() }
    }

    /// Makes a call: each store call that it asks for, one after another, to its answer.
    async fn call(&self, call: Call, found: &mut Found) -> Result<Answer, Refused> {
        let op = self.client.begin(&call)?;
        loop {
            let (file, reply) = match op.asked() {
                Asked::Nothing => return Ok(op.answer()),
                Asked::Look => {
                    op.look();
                    continue;
                }
                Asked::Put(file, mode, bytes) => (file, Reply::Put(self.put(file, mode, bytes, found).await)),
                Asked::Get(file, known) => (file, Reply::Got(self.get(file, known, found).await)),
                Asked::List(after, limit) => (after, Reply::Listed(self.page(after, limit, found).await)),
                Asked::Delete(file) => (file, Reply::Deleted(self.remove(file, found).await)),
            };
            op.take(file, reply);
        }
    }

    /// The same. Where the client was not told of the base it reads the newest version, and so is told of it, or finds that
    /// it is another.
    async fn run(&self, call: Call) -> Result<(Answer, Found), TransactionalObjectError> {
        let mut found = Found::default();
        let mut answer = self.call(call.clone(), &mut found).await;
        if matches!(answer, Err(Refused::UnknownBase | Refused::BoundaryTooHigh)) {
            let read = self.call(Call::Read, &mut found).await;
            if let (Ok(Answer::Read(Some((newest, _)))), Call::Write(base, _) | Call::WriteUnchecked(base, _)) = (&read, &call) {
                if newest > base {
                    return Err(TransactionalObjectError::ObjectVersionExists);
                }
            }
            if let Ok(Answer::Refused(number)) = read {
                return Err(of_refusal(number, found));
            }
            answer = self.call(call, &mut found).await;
        }
        match answer {
            Ok(Answer::Refused(number)) => Err(of_refusal(number, found)),
            Ok(answer) => Ok((answer, found)),
            Err(_) => Err(TransactionalObjectError::InvalidObjectState),
        }
    }

    async fn put(&self, file: u64, mode: Mode, bytes: Bytes, found: &mut Found) -> Result<u64, Fault> {
        let mode = match mode {
            Mode::Create => PutMode::Create,
            Mode::Update(token) => PutMode::Update(locked(&self.tokens).version(token)),
            Mode::Overwrite => PutMode::Overwrite,
        };
        let (path, payload) = (self.path_of(file), PutPayload::from_bytes(bytes));
        match self.object_store.put_opts(&path, payload, PutOptions::from(mode)).await {
            Ok(put) => Ok(self.token(file, put.into())),
            Err(error) => Err(found.fault(error)),
        }
    }

    /// The number of a state of a file. Those of versions nobody asks for.
    fn token(&self, file: u64, version: UpdateVersion) -> u64 {
        if file == 0 { locked(&self.tokens).number(version) } else { 0 }
    }

    async fn get(&self, file: u64, known: Option<u64>, found: &mut Found) -> Result<(u64, Bytes), Fault> {
        let known = known.and_then(|token| locked(&self.tokens).version(token).e_tag);
        let options = GetOptions { if_none_match: known, ..GetOptions::default() };
        let got = match self.object_store.get_opts(&self.path_of(file), options).await {
            Ok(got) => got,
            Err(error) => return Err(found.fault(error)),
        };
        let version = UpdateVersion { e_tag: got.meta.e_tag.clone(), version: got.meta.version.clone() };
        match got.bytes().await {
            Ok(bytes) => Ok((self.token(file, version), bytes)),
            Err(error) => Err(found.fault(error)),
        }
    }

    async fn page(&self, after: u64, limit: u64, found: &mut Found) -> Result<(Vec<u64>, bool), Fault> {
        let mut files = self.object_store.list(Some(&self.folder));
        let mut ids = Vec::new();
        while let Some(file) = files.next().await {
            match file {
                Ok(meta) => {
                    if let Some(id) = self.id_of(&meta.location).filter(|id| *id > after) {
                        ids.push(id);
                        found.metas.insert(id, meta);
                    }
                }
                Err(error) => {
                    found.failed = Some(error);
                    return Err(Fault::Failed);
                }
            }
        }
        ids.sort_unstable();
        let more = ids.len() as u64 > limit;
        ids.truncate(limit as usize);
        Ok((ids, more))
    }

    async fn remove(&self, file: u64, found: &mut Found) -> Result<(), Fault> {
        match self.object_store.delete(&self.path_of(file)).await {
            Ok(()) | Err(Error::NotFound { .. }) => Ok(()),
            Err(error) => {
                found.failed = Some(error);
                Err(Fault::Failed)
            }
        }
    }

    fn decoded(&self, bytes: &Bytes) -> Result<T, TransactionalObjectError> {
        self.codec.decode(bytes).map_err(TransactionalObjectError::CallbackError)
    }

    /// What a read of the newest version answers.
    async fn newest(&self, call: Call) -> Result<Option<(MonotonicId, T)>, TransactionalObjectError> {
        match self.run(call).await?.0 {
            Answer::Read(Some((id, bytes))) => Ok(Some((MonotonicId::new(id), self.decoded(&bytes)?))),
            Answer::Read(None) => Ok(None),
            _ => Err(TransactionalObjectError::InvalidObjectState),
        }
    }

    async fn done(&self, call: Call) -> Result<(), TransactionalObjectError> {
        self.run(call).await?;
        Ok(())
    }

    async fn written(&self, call: Call) -> Result<MonotonicId, TransactionalObjectError> {
        match self.run(call).await?.0 {
            Answer::Wrote(id) => Ok(MonotonicId::new(id)),
            _ => Err(TransactionalObjectError::InvalidObjectState),
        }
    }
}

fn boundary_file(root: &Path, name: &str) -> Path {
    root.clone().join("gc").join(format!("{name}.boundary"))
}

fn base_of(current_id: Option<MonotonicId>) -> u64 {
    current_id.map_or(0, |id| id.id())
}

#[async_trait]
impl<T: Send + Sync> BoundaryObject for ObjectStoreSequencedStorageProtocol<T> {
    async fn check(&self, id: MonotonicId) -> Result<(), TransactionalObjectError> {
        match &self.boundary {
            Some(boundary) => boundary.check(id).await,
            None => self.done(Call::Check(id.id())).await,
        }
    }

    async fn advance(&self, to: MonotonicId) -> Result<(), TransactionalObjectError> {
        match &self.boundary {
            Some(boundary) => boundary.advance(to).await,
            None => self.done(Call::Advance(to.id())).await,
        }
    }
}

#[async_trait]
impl<T: Send + Sync> SequencedStorageProtocol<T> for ObjectStoreSequencedStorageProtocol<T> {
    async fn write_unchecked(
        &self,
        current_id: Option<MonotonicId>,
        new_value: &T,
    ) -> Result<MonotonicId, TransactionalObjectError> {
        let bytes = self.codec.encode(new_value);
        self.written(Call::WriteUnchecked(base_of(current_id), bytes)).await
    }

    async fn write_checked(
        &self,
        current_id: Option<MonotonicId>,
        new_value: &T,
    ) -> Result<MonotonicId, TransactionalObjectError> {
        if let Some(boundary) = &self.boundary {
            let id = self.write_unchecked(current_id, new_value).await?;
            boundary.check(id).await?;
            return Ok(id);
        }
        let bytes = self.codec.encode(new_value);
        self.written(Call::Write(base_of(current_id), bytes)).await
    }

    async fn try_read_latest_unchecked(&self) -> Result<Option<(MonotonicId, T)>, TransactionalObjectError> {
        self.newest(Call::ReadLatestUnchecked).await
    }

    async fn try_read_latest_checked(&self) -> Result<Option<(MonotonicId, T)>, TransactionalObjectError> {
        if let Some(boundary) = &self.boundary {
            while let Some((id, value)) = self.try_read_latest_unchecked().await? {
                match boundary.check(id).await {
                    Ok(()) => return Ok(Some((id, value))),
                    Err(error) if error.is_sequenced_write_conflict() => {}
                    Err(error) => return Err(error),
                }
            }
            return Ok(None);
        }
        self.newest(Call::Read).await
    }

    async fn try_read_unchecked(&self, id: MonotonicId) -> Result<Option<T>, TransactionalObjectError> {
        match self.run(Call::ReadVersion(id.id())).await?.0 {
            Answer::Value(Some(bytes)) => Ok(Some(self.decoded(&bytes)?)),
            Answer::Value(None) => Ok(None),
            _ => Err(TransactionalObjectError::InvalidObjectState),
        }
    }

    async fn list(
        &self,
        from: Bound<MonotonicId>,
        to: Bound<MonotonicId>,
    ) -> Result<Vec<IdentifiedObjectMetadata<MonotonicId>>, TransactionalObjectError> {
        let (from, to) = (from.map(|id| id.id()), to.map(|id| id.id()));
        let (Answer::Ids(ids), mut found) = self.run(Call::List(from, to)).await? else {
            return Err(TransactionalObjectError::InvalidObjectState);
        };
        let told = ids.into_iter().filter_map(|id| Some((id, found.metas.remove(&id)?)));
        Ok(told.map(|(id, meta)| IdentifiedObjectMetadata::from_object_meta(MonotonicId::new(id), meta)).collect())
    }

    async fn delete_unchecked(&self, id: MonotonicId) -> Result<(), TransactionalObjectError> {
        self.done(Call::DeleteUnchecked(id.id())).await
    }

    async fn delete(&self, id: MonotonicId) -> Result<(), TransactionalObjectError> {
        let Some(boundary) = &self.boundary else {
            return self.done(Call::Delete(id.id())).await;
        };
        match boundary.check(id).await {
            Ok(()) => Err(TransactionalObjectError::InvalidObjectState),
            Err(error) if error.is_sequenced_write_conflict() => self.delete_unchecked(id).await,
            Err(error) => Err(error),
        }
    }
}

/// A boundary alone, as a file of an object store: the steps of this one are the host's own, and no theorem speaks of them.
pub struct ObjectStoreBoundaryObject {
    object_store: Arc<dyn ObjectStore>,
    file: Path,
    /// The greatest boundary that was seen, and the state of the file that says it.
    seen: Mutex<Option<(u64, UpdateVersion)>>,
}

impl ObjectStoreBoundaryObject {
    /// The boundary of the object of this name below the root.
    pub fn new(root_path: &Path, object_store: Arc<dyn ObjectStore>, name: &str) -> Self {
        Self { object_store, file: boundary_file(root_path, name), seen: Mutex::new(None) }
    }

    /// Keeps what was seen, where it is not below what was kept: what is kept then.
    fn keep(&self, number: u64, version: UpdateVersion) -> (u64, Option<UpdateVersion>) {
        let mut seen = locked(&self.seen);
        let newer = seen.take().filter(|kept| kept.0 > number).unwrap_or((number, version));
        *seen = Some(newer.clone());
        (newer.0, Some(newer.1))
    }

    /// What the file says, 0 where there is none.
    async fn read(&self) -> Result<(u64, Option<UpdateVersion>), TransactionalObjectError> {
        let known = locked(&self.seen).as_ref().and_then(|(_, version)| version.e_tag.clone());
        let options = GetOptions { if_none_match: known, ..GetOptions::default() };
        match self.object_store.get_opts(&self.file, options).await {
            Ok(got) => {
                let version = UpdateVersion { e_tag: got.meta.e_tag.clone(), version: got.meta.version.clone() };
                let bytes = got.bytes().await?;
                let number = std::str::from_utf8(&bytes).ok().and_then(|text| text.trim().parse().ok());
                let number = number.ok_or(TransactionalObjectError::InvalidObjectState)?;
                Ok(self.keep(number, version))
            }
            Err(Error::NotModified { .. }) => match locked(&self.seen).clone() {
                Some((number, version)) => Ok((number, Some(version))),
                None => Err(TransactionalObjectError::InvalidObjectState),
            },
            Err(Error::NotFound { .. }) => Ok((0, None)),
            Err(error) => Err(error.into()),
        }
    }
}

#[async_trait]
impl BoundaryObject for ObjectStoreBoundaryObject {
    async fn check(&self, id: MonotonicId) -> Result<(), TransactionalObjectError> {
        let seen = locked(&self.seen).as_ref().map_or(0, |(number, _)| *number);
        if id.id() <= seen || id.id() <= self.read().await?.0 {
            return Err(TransactionalObjectError::ObjectVersionExists);
        }
        Ok(())
    }

    async fn advance(&self, boundary: MonotonicId) -> Result<(), TransactionalObjectError> {
        let seen = locked(&self.seen).clone();
        let (mut number, mut version) = match seen {
            Some((number, version)) => (number, Some(version)),
            None => self.read().await?,
        };
        while number < boundary.id() {
            let mode = version.map_or(PutMode::Create, PutMode::Update);
            let payload = PutPayload::from(boundary.id().to_string());
            match self.object_store.put_opts(&self.file, payload, PutOptions::from(mode)).await {
                Ok(put) => {
                    self.keep(boundary.id(), put.into());
                    return Ok(());
                }
                Err(Error::AlreadyExists { .. } | Error::Precondition { .. }) => {
                    (number, version) = self.read().await?;
                }
                Err(error) => return Err(error.into()),
            }
        }
        Ok(())
    }
}
