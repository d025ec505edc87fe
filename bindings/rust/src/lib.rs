//! An object in an object store, as numbered versions that many clients update by compare and swap, and claims of an epoch that
//! shut out older holders: the public interface of `slatedb-txn-obj` 0.17.0, over a library whose steps are proved.
//!
//! [`object_store::ObjectStoreSequencedStorageProtocol`] asks the library what to do next, makes that one store call, and hands
//! in the reply. What is here besides holds no state of the protocol.
//!
//! The read of the newest version that checks nothing, and the delete that checks nothing, are none of the library's calls: no
//! theorem of many clients speaks of them. Nor does it speak of a boundary object of the caller's own.

#![warn(missing_docs)]

mod client;
mod ffi;
pub mod object_store;

use ::object_store::Error as StoreError;
use async_trait::async_trait;
use bytes::Bytes;
use log::warn;
use slatedb_common::clock::SystemClock;
use slatedb_common::object_metadata::IdentifiedObjectMetadata;
use slatedb_common::utils;
use std::error::Error;
use std::ops::{Add, Bound};
use std::sync::Arc;
use std::time::Duration;

/// An error that a caller's own function gave.
pub type BoxedError = Box<dyn Error + Send + Sync>;

/// Why there is no result.
#[non_exhaustive]
#[derive(Debug, thiserror::Error)]
pub enum TransactionalObjectError {
    /// A call of the system failed.
    #[error("io error")]
    IoError(#[from] Arc<std::io::Error>),
    /// A store call failed.
    #[error("object store error")]
    ObjectStoreError(#[from] StoreError),
    /// No epoch was claimed within the time.
    #[error("object update timed out")]
    ObjectUpdateTimeout {
        /// The time.
        timeout: Duration,
    },
    /// There is no version.
    #[error("failed to find latest record")]
    LatestRecordMissing,
    /// A newer version stands, or the boundary has reached the one that was written.
    #[error("object version exists")]
    ObjectVersionExists,
    /// A greater epoch was claimed.
    #[error("detected newer client")]
    Fenced,
    /// What is stored does not fit what was asked for.
    #[error("object in store is in an unexpected state")]
    InvalidObjectState,
    /// A function of the caller's, as a codec, a mutator or an invariant, failed.
    #[error("callback error")]
    CallbackError(BoxedError),
}

impl TransactionalObjectError {
    /// Whether another was first: one refreshes, and tries again.
    pub fn is_sequenced_write_conflict(&self) -> bool {
        matches!(self, Self::ObjectVersionExists)
    }
}

/// How values are written as bytes. What is written has to be read as the same value.
pub trait ObjectCodec<T>: Send + Sync {
    /// Writes a value.
    fn encode(&self, value: &T) -> Bytes;
    /// Reads what was written.
    fn decode(&self, bytes: &Bytes) -> Result<T, BoxedError>;
}

/// The id of a version. The first has 1, and each the next of the one that it was written on.
#[derive(Debug, Clone, Copy, PartialEq, Eq, PartialOrd, Ord, Hash)]
pub struct MonotonicId {
    id: u64,
}

impl MonotonicId {
    /// The id of the first version.
    pub fn initial() -> Self {
        Self { id: 1 }
    }

    /// The id of this number.
    pub fn new(id: u64) -> Self {
        Self { id }
    }

    /// Its number.
    pub fn id(&self) -> u64 {
        self.id
    }

    /// The id after it.
    pub fn next(&self) -> Self {
        Self { id: self.id + 1 }
    }
}

impl PartialEq<u64> for MonotonicId {
    fn eq(&self, other: &u64) -> bool {
        self.id == *other
    }
}

impl PartialEq<MonotonicId> for u64 {
    fn eq(&self, other: &MonotonicId) -> bool {
        *self == other.id
    }
}

impl Add<u64> for MonotonicId {
    type Output = MonotonicId;

    fn add(self, more: u64) -> MonotonicId {
        MonotonicId::new(self.id + more)
    }
}

impl From<u64> for MonotonicId {
    fn from(id: u64) -> Self {
        Self::new(id)
    }
}

impl From<MonotonicId> for u64 {
    fn from(id: MonotonicId) -> Self {
        id.id
    }
}

/// A candidate for the next version: the id of the one that it is made of, and a value.
#[derive(Clone, Debug)]
pub struct DirtyObject<T, Id = MonotonicId> {
    /// The id of the version that it is written on.
    pub id: Id,
    /// What is written.
    pub value: T,
}

/// What has to hold of a candidate's value and the one before it, each time that one is written.
pub type Invariant<T> = Arc<dyn Fn(&T, &T) -> Result<(), BoxedError> + Send + Sync>;

/// A version in memory, which moves to what its updates write.
#[async_trait]
pub trait TransactionalObject<T: Clone, Id = MonotonicId> {
    /// The id of the version that it is at.
    fn id(&self) -> Id;

    /// The value of that version.
    fn object(&self) -> &T;

    /// A candidate of that version, to be changed and written.
    fn prepare_dirty(&self) -> Result<DirtyObject<T, Id>, TransactionalObjectError>;

    /// Moves to the newest version.
    async fn refresh(&mut self) -> Result<&T, TransactionalObjectError>;

    /// Writes a candidate directly on the version that it is at, and moves to it. Where a newer version stands it is
    /// `ObjectVersionExists`.
    async fn update(&mut self, dirty: DirtyObject<T, Id>) -> Result<(), TransactionalObjectError>;

    /// Writes what the mutator makes of the version, where it makes something. After a conflict it refreshes, and asks the
    /// mutator once more.
    async fn maybe_apply_update<F, Err>(&mut self, mutator: F) -> Result<(), TransactionalObjectError>
    where
        Err: Error + Send + Sync + 'static,
        F: Fn(&Self) -> Result<Option<DirtyObject<T, Id>>, Err> + Send + Sync,
    {
        loop {
            let dirty = match mutator(self).map_err(|error| TransactionalObjectError::CallbackError(Box::new(error)))? {
                Some(dirty) => dirty,
                None => return Ok(()),
            };
            match self.update(dirty).await {
                Err(error) if error.is_sequenced_write_conflict() => {
                    self.refresh().await?;
                }
                done => return done,
            }
        }
    }
}

/// A version in memory whose updates go through a protocol.
#[derive(Clone)]
pub struct SimpleTransactionalObject<T, Id = MonotonicId> {
    id: Id,
    object: T,
    ops: Arc<dyn TransactionalStorageProtocol<T, Id>>,
    invariants: Vec<Invariant<T>>,
}

impl<T: Clone, Id> SimpleTransactionalObject<T, Id> {
    fn at(id: Id, object: T, ops: Arc<dyn TransactionalStorageProtocol<T, Id>>) -> Self {
        Self { id, object, ops, invariants: Vec::new() }
    }

    /// The same with these invariants. The first that fails of a candidate stops its update, as `CallbackError`.
    pub fn with_invariants(mut self, invariants: Vec<Invariant<T>>) -> Self {
        self.invariants = invariants;
        self
    }

    /// Writes the first version, and is at it.
    pub async fn init(
        protocol: Arc<dyn TransactionalStorageProtocol<T, Id>>,
        value: T,
    ) -> Result<Self, TransactionalObjectError> {
        let id = protocol.write(None, &value).await?;
        Ok(Self::at(id, value, protocol))
    }

    /// Reads the newest version, and is at it; nothing where there is none.
    pub async fn try_load(
        protocol: Arc<dyn TransactionalStorageProtocol<T, Id>>,
    ) -> Result<Option<Self>, TransactionalObjectError> {
        let found = protocol.try_read_latest().await?;
        Ok(found.map(|(id, object)| Self::at(id, object, protocol)))
    }

    /// The same. Where there is no version it is `LatestRecordMissing`.
    pub async fn load(
        protocol: Arc<dyn TransactionalStorageProtocol<T, Id>>,
    ) -> Result<Self, TransactionalObjectError> {
        let found = Self::try_load(protocol).await?;
        found.ok_or(TransactionalObjectError::LatestRecordMissing)
    }
}

#[async_trait]
impl<T, Id> TransactionalObject<T, Id> for SimpleTransactionalObject<T, Id>
where
    T: Clone + Send + Sync,
    Id: Clone + PartialEq + Send + Sync,
{
    fn id(&self) -> Id {
        self.id.clone()
    }

    fn object(&self) -> &T {
        &self.object
    }

    fn prepare_dirty(&self) -> Result<DirtyObject<T, Id>, TransactionalObjectError> {
        Ok(DirtyObject { id: self.id.clone(), value: self.object.clone() })
    }

    async fn refresh(&mut self) -> Result<&T, TransactionalObjectError> {
        let found = self.ops.try_read_latest().await?;
        let (id, object) = found.ok_or(TransactionalObjectError::InvalidObjectState)?;
        self.id = id;
        self.object = object;
        Ok(&self.object)
    }

    async fn update(&mut self, dirty: DirtyObject<T, Id>) -> Result<(), TransactionalObjectError> {
        if dirty.id != self.id {
            return Err(TransactionalObjectError::ObjectVersionExists);
        }
        for invariant in &self.invariants {
            invariant(&dirty.value, &self.object).map_err(TransactionalObjectError::CallbackError)?;
        }
        self.id = self.ops.write(Some(dirty.id), &dirty.value).await?;
        self.object = dirty.value;
        Ok(())
    }
}

/// An object as the holder of an epoch has it. As long as none claims a greater one, it alone writes.
pub struct FenceableTransactionalObject<T: Clone, Id = MonotonicId> {
    inner: SimpleTransactionalObject<T, Id>,
    local_epoch: u64,
    get_epoch: fn(&T) -> u64,
}

impl<T: Clone + Send + Sync> FenceableTransactionalObject<T, MonotonicId> {
    /// Claims the epoch after that of the newest version, and tries again after a conflict.
    ///
    /// # Errors
    ///
    /// `ObjectUpdateTimeout` where the time is over; those of an update and of a refresh.
    pub async fn init(
        delegate: SimpleTransactionalObject<T, MonotonicId>,
        object_update_timeout: Duration,
        system_clock: Arc<dyn SystemClock>,
        get_epoch: fn(&T) -> u64,
        set_epoch: fn(&mut T, u64),
    ) -> Result<Self, TransactionalObjectError> {
        let next = move |stored: u64| Ok(stored + 1);
        Self::claim(delegate, object_update_timeout, system_clock, next, get_epoch, set_epoch).await
    }

    /// Claims this epoch, and tries again after a conflict.
    ///
    /// # Errors
    ///
    /// `Fenced` where the newest version has this epoch or a greater one; `ObjectUpdateTimeout` where the time is over; those of
    /// an update and of a refresh.
    pub async fn init_with_epoch(
        delegate: SimpleTransactionalObject<T, MonotonicId>,
        object_update_timeout: Duration,
        system_clock: Arc<dyn SystemClock>,
        epoch: u64,
        get_epoch: fn(&T) -> u64,
        set_epoch: fn(&mut T, u64),
    ) -> Result<Self, TransactionalObjectError> {
        let next = move |stored: u64| {
            if epoch <= stored {
                return Err(TransactionalObjectError::Fenced);
            }
            Ok(epoch)
        };
        Self::claim(delegate, object_update_timeout, system_clock, next, get_epoch, set_epoch).await
    }

    /// Claims the epoch that is next after the stored one.
    async fn claim(
        mut inner: SimpleTransactionalObject<T, MonotonicId>,
        timeout: Duration,
        clock: Arc<dyn SystemClock>,
        next: impl Fn(u64) -> Result<u64, TransactionalObjectError> + Send + Sync,
        get_epoch: fn(&T) -> u64,
        set_epoch: fn(&mut T, u64),
    ) -> Result<Self, TransactionalObjectError> {
        let claiming = async {
            loop {
                let local_epoch = next(get_epoch(inner.object()))?;
                let mut dirty = inner.prepare_dirty()?;
                set_epoch(&mut dirty.value, local_epoch);
                match inner.update(dirty).await {
                    Err(error) if error.is_sequenced_write_conflict() => {
                        inner.refresh().await?;
                    }
                    Err(error) => return Err(error),
                    Ok(()) => return Ok(Self { inner, local_epoch, get_epoch }),
                }
            }
        };
        let late = || TransactionalObjectError::ObjectUpdateTimeout { timeout };
        utils::timeout(clock, timeout, late, claiming).await
    }

    /// The epoch that it holds.
    pub fn local_epoch(&self) -> u64 {
        self.local_epoch
    }

    /// Whether the version that it is at is of its epoch.
    fn check_epoch(&self) -> Result<(), TransactionalObjectError> {
        let stored = (self.get_epoch)(self.inner.object());
        if self.local_epoch < stored {
            return Err(TransactionalObjectError::Fenced);
        }
        assert!(self.local_epoch <= stored, "the stored epoch is lower than the local epoch");
        Ok(())
    }
}

#[async_trait]
impl<T: Clone + Send + Sync> TransactionalObject<T> for FenceableTransactionalObject<T, MonotonicId> {
    fn id(&self) -> MonotonicId {
        self.inner.id()
    }

    fn object(&self) -> &T {
        self.inner.object()
    }

    fn prepare_dirty(&self) -> Result<DirtyObject<T, MonotonicId>, TransactionalObjectError> {
        self.check_epoch()?;
        self.inner.prepare_dirty()
    }

    async fn refresh(&mut self) -> Result<&T, TransactionalObjectError> {
        self.inner.refresh().await?;
        self.check_epoch()?;
        Ok(self.inner.object())
    }

    async fn update(&mut self, dirty: DirtyObject<T, MonotonicId>) -> Result<(), TransactionalObjectError> {
        self.check_epoch()?;
        self.inner.update(dirty).await
    }
}

/// How an object's versions are written and read, each write on the version that its caller knows.
#[async_trait]
pub trait TransactionalStorageProtocol<T, Id>: Send + Sync {
    /// Writes a value on the version of this id, or as the first where there is no id: its id. Where a newer version stands, or
    /// the boundary has reached what was written, it is `ObjectVersionExists`.
    async fn write(&self, current_id: Option<Id>, new_value: &T) -> Result<Id, TransactionalObjectError>;

    /// The newest version, or nothing where there is none.
    async fn try_read_latest(&self) -> Result<Option<(Id, T)>, TransactionalObjectError>;
}

/// A number that only rises, kept beside the versions: those at or below it may be removed, and no write of one of them counts.
#[async_trait]
pub trait BoundaryObject: Send + Sync {
    /// Whether an id is above the boundary. Else it is `ObjectVersionExists`.
    async fn check(&self, id: MonotonicId) -> Result<(), TransactionalObjectError>;

    /// Raises the boundary to at least this.
    async fn advance(&self, boundary: MonotonicId) -> Result<(), TransactionalObjectError>;
}

/// A protocol that keeps the versions by their ids, beside a boundary. What checks is made of what does not.
#[async_trait]
pub trait SequencedStorageProtocol<T: Send + Sync>:
    TransactionalStorageProtocol<T, MonotonicId> + BoundaryObject
{
    /// Writes a version without the check that it is above the boundary.
    async fn write_unchecked(
        &self,
        current_id: Option<MonotonicId>,
        new_value: &T,
    ) -> Result<MonotonicId, TransactionalObjectError>;

    /// The newest version, without that check: it may be one that others have removed.
    async fn try_read_latest_unchecked(&self) -> Result<Option<(MonotonicId, T)>, TransactionalObjectError>;

    /// The version of this id, or nothing where there is none. The boundary is not asked.
    async fn try_read_unchecked(&self, id: MonotonicId) -> Result<Option<T>, TransactionalObjectError>;

    /// The stored versions within the bounds, in ascending ids. The boundary is not asked.
    async fn list(
        &self,
        from: Bound<MonotonicId>,
        to: Bound<MonotonicId>,
    ) -> Result<Vec<IdentifiedObjectMetadata<MonotonicId>>, TransactionalObjectError>;

    /// Removes a version without the check that it is at or below the boundary.
    async fn delete_unchecked(&self, id: MonotonicId) -> Result<(), TransactionalObjectError>;

    /// Removes a version that is at or below the boundary. Of one above it is `InvalidObjectState`.
    async fn delete(&self, id: MonotonicId) -> Result<(), TransactionalObjectError> {
        match self.check(id).await {
            Ok(()) => Err(TransactionalObjectError::InvalidObjectState),
            Err(TransactionalObjectError::ObjectVersionExists) => self.delete_unchecked(id).await,
            Err(error) => Err(error),
        }
    }

    /// A write with its check: of a protocol that has this as one call, in place of the two.
    #[doc(hidden)]
    async fn write_checked(
        &self,
        current_id: Option<MonotonicId>,
        new_value: &T,
    ) -> Result<MonotonicId, TransactionalObjectError> {
        let id = self.write_unchecked(current_id, new_value).await?;
        self.check(id).await?;
        Ok(id)
    }

    /// A read of the newest version with its check: of a protocol that has this as one call, in place of the two.
    #[doc(hidden)]
    async fn try_read_latest_checked(&self) -> Result<Option<(MonotonicId, T)>, TransactionalObjectError> {
        loop {
            let Some((id, value)) = self.try_read_latest_unchecked().await? else {
                return Ok(None);
            };
            match self.check(id).await {
                Ok(()) => return Ok(Some((id, value))),
                Err(error) if error.is_sequenced_write_conflict() => {
                    warn!("the newest version that was read is at or below the boundary: {id:?}");
                }
                Err(error) => return Err(error),
            }
        }
    }
}

#[async_trait]
impl<T, Store> TransactionalStorageProtocol<T, MonotonicId> for Store
where
    T: Send + Sync,
    Store: SequencedStorageProtocol<T> + ?Sized,
{
    async fn write(
        &self,
        current_id: Option<MonotonicId>,
        new_value: &T,
    ) -> Result<MonotonicId, TransactionalObjectError> {
        self.write_checked(current_id, new_value).await
    }

    async fn try_read_latest(&self) -> Result<Option<(MonotonicId, T)>, TransactionalObjectError> {
        self.try_read_latest_checked().await
    }
}

/// For tests of those who use this crate.
#[cfg(feature = "test-util")]
pub mod test_utils {
    use crate::DirtyObject;

    /// A candidate of the version of this id.
    pub fn new_dirty_object<T>(id: u64, value: T) -> DirtyObject<T> {
        DirtyObject { id: id.into(), value }
    }
}
