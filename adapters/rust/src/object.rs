//! A protocol whose calls are recorded.

use crate::recorder::{Answer, Recorder};
use crate::views::View;
use async_trait::async_trait;
use slatedb_common::object_metadata::IdentifiedObjectMetadata;
use slatedb_txn_obj::{
    BoundaryObject, MonotonicId, ObjectCodec, SequencedStorageProtocol, SimpleTransactionalObject, TransactionalObject,
    TransactionalObjectError,
};
use std::future::Future;
use std::ops::Bound;
use std::sync::Arc;

/// A protocol whose calls are recorded, and the objects that are made over it, whose calls are recorded as those of views and holders.
///
/// It is a `SequencedStorageProtocol` too, for the crate's own objects: their writes and reads are recorded then, and not that they are
/// those of a view or a holder.
pub struct Recorded<T> {
    pub(crate) recorder: Recorder,
    pub(crate) protocol: Arc<dyn SequencedStorageProtocol<T>>,
    pub(crate) codec: Box<dyn ObjectCodec<T>>,
}

fn base(id: Option<MonotonicId>) -> String {
    id.map_or("-".into(), |id| id.id().to_string())
}

fn bound(bound: Bound<MonotonicId>) -> String {
    match bound {
        Bound::Unbounded => "-".into(),
        Bound::Included(id) => format!("={}", id.id()),
        Bound::Excluded(id) => format!("!{}", id.id()),
    }
}

fn wrote(id: &MonotonicId) -> String {
    format!("wrote {}", id.id())
}

fn done(_: &()) -> String {
    "done".into()
}

impl<T: Clone + Send + Sync + 'static> Recorded<T> {
    pub(crate) fn words(&self, value: &T) -> String {
        self.recorder.words(&self.codec.encode(value))
    }

    pub(crate) fn view_words(&self, view: u64, id: MonotonicId, value: &T) -> String {
        format!("view {view} at {} {}", id.id(), self.words(value))
    }

    /// `SimpleTransactionalObject::init`.
    ///
    /// # Errors
    ///
    /// Those of the crate; so do all calls here answer.
    pub async fn init(self: &Arc<Self>, value: T) -> Answer<View<T>> {
        let call = format!("init {}", self.words(&value));
        self.made(call, SimpleTransactionalObject::init(self.protocol.clone(), value)).await
    }

    /// `SimpleTransactionalObject::load`.
    pub async fn load(self: &Arc<Self>) -> Answer<View<T>> {
        self.made("load".into(), SimpleTransactionalObject::load(self.protocol.clone())).await
    }

    /// `SimpleTransactionalObject::try_load`, recorded as a load.
    pub async fn try_load(self: &Arc<Self>) -> Answer<Option<View<T>>> {
        match self.load().await {
            Ok(view) => Ok(Some(view)),
            Err(TransactionalObjectError::LatestRecordMissing) => Ok(None),
            Err(error) => Err(error),
        }
    }

    async fn made(
        self: &Arc<Self>,
        call: String,
        work: impl Future<Output = Answer<SimpleTransactionalObject<T>>>,
    ) -> Answer<View<T>> {
        let mut view = 0;
        let said = |object: &SimpleTransactionalObject<T>| {
            view = self.recorder.next_view();
            self.view_words(view, object.id(), object.object())
        };
        let inner = self.recorder.call(call, false, work, said).await?;
        Ok(View { recorded: self.clone(), inner, view })
    }

    /// The protocol's checked write.
    pub async fn write(&self, current: Option<MonotonicId>, value: &T) -> Answer<MonotonicId> {
        let call = format!("write {} {}", base(current), self.words(value));
        self.recorder.call(call, false, self.protocol.write(current, value), wrote).await
    }

    /// The protocol's checked read of the newest version.
    pub async fn try_read_latest(&self) -> Answer<Option<(MonotonicId, T)>> {
        let said = |read: &Option<(MonotonicId, T)>| match read {
            Some((id, value)) => format!("read {} {}", id.id(), self.words(value)),
            None => "read none".into(),
        };
        self.recorder.call("read".into(), false, self.protocol.try_read_latest(), said).await
    }

    /// The protocol's unchecked write.
    pub async fn write_unchecked(&self, current: Option<MonotonicId>, value: &T) -> Answer<MonotonicId> {
        let call = format!("write_unchecked {} {}", base(current), self.words(value));
        self.recorder.call(call, false, self.protocol.write_unchecked(current, value), wrote).await
    }

    /// The protocol's unchecked read of one version.
    pub async fn try_read_unchecked(&self, id: MonotonicId) -> Answer<Option<T>> {
        let said = |value: &Option<T>| format!("value {}", value.as_ref().map_or("none".into(), |value| self.words(value)));
        self.recorder.call(format!("read_unchecked {}", id.id()), false, self.protocol.try_read_unchecked(id), said).await
    }

    /// The protocol's listing.
    pub async fn list(
        &self,
        from: Bound<MonotonicId>,
        to: Bound<MonotonicId>,
    ) -> Answer<Vec<IdentifiedObjectMetadata<MonotonicId>>> {
        let said = |files: &Vec<IdentifiedObjectMetadata<MonotonicId>>| match files.len() {
            0 => "ids none".into(),
            _ => files.iter().fold(String::from("ids"), |words, file| format!("{words} {}", file.id.id())),
        };
        let call = format!("list {} {}", bound(from), bound(to));
        self.recorder.call(call, false, self.protocol.list(from, to), said).await
    }

    /// The protocol's checked delete.
    pub async fn delete(&self, id: MonotonicId) -> Answer<()> {
        self.recorder.call(format!("delete {}", id.id()), false, self.protocol.delete(id), done).await
    }
}

#[async_trait]
impl<T: Send + Sync> BoundaryObject for Recorded<T> {
    async fn check(&self, id: MonotonicId) -> Answer<()> {
        self.recorder.call(format!("check {}", id.id()), false, self.protocol.check(id), done).await
    }

    async fn advance(&self, boundary: MonotonicId) -> Answer<()> {
        self.recorder.call(format!("advance {}", boundary.id()), false, self.protocol.advance(boundary), done).await
    }
}

/// For what wants the crate's own traits, as its objects do. The crate makes a write of an unchecked write and a check, and leaves no
/// other type to make it otherwise: so through this trait an unchecked call that a checked one is made of is the checked one, and what
/// the crate checks after it is checked, and recorded, twice.
#[async_trait]
impl<T: Clone + Send + Sync + 'static> SequencedStorageProtocol<T> for Recorded<T> {
    async fn write_unchecked(&self, current: Option<MonotonicId>, value: &T) -> Answer<MonotonicId> {
        self.write(current, value).await
    }

    async fn try_read_latest_unchecked(&self) -> Answer<Option<(MonotonicId, T)>> {
        self.try_read_latest().await
    }

    async fn try_read_unchecked(&self, id: MonotonicId) -> Answer<Option<T>> {
        self.try_read_unchecked(id).await
    }

    async fn list(
        &self,
        from: Bound<MonotonicId>,
        to: Bound<MonotonicId>,
    ) -> Answer<Vec<IdentifiedObjectMetadata<MonotonicId>>> {
        self.list(from, to).await
    }

    async fn delete_unchecked(&self, id: MonotonicId) -> Answer<()> {
        self.delete(id).await
    }

    async fn delete(&self, id: MonotonicId) -> Answer<()> {
        self.delete(id).await
    }
}
