//! A view whose calls are recorded, and the calls that it has in common with a holder.

use crate::holders::{held, Holder};
use crate::object::Recorded;
use crate::recorder::Answer;
use async_trait::async_trait;
use slatedb_common::clock::SystemClock;
use slatedb_txn_obj::{
    DirtyObject, FenceableTransactionalObject, Invariant, MonotonicId, SimpleTransactionalObject, TransactionalObject,
    TransactionalObjectError,
};
use std::sync::Arc;
use std::time::Duration;

/// A `SimpleTransactionalObject` whose calls are recorded.
pub struct View<T> {
    pub(crate) recorded: Arc<Recorded<T>>,
    pub(crate) inner: SimpleTransactionalObject<T>,
    pub(crate) view: u64,
}

impl<T: Clone + Send + Sync + 'static> View<T> {
    /// `SimpleTransactionalObject::with_invariants`. An update that one refuses asks nothing of the store, and is not recorded.
    pub fn with_invariants(mut self, invariants: Vec<Invariant<T>>) -> Self {
        self.inner = self.inner.with_invariants(invariants);
        self
    }

    /// `FenceableTransactionalObject::init`.
    ///
    /// # Errors
    ///
    /// Those of the crate. The view is gone then.
    pub async fn claim(
        self,
        timeout: Duration,
        clock: Arc<dyn SystemClock>,
        get_epoch: fn(&T) -> u64,
        set_epoch: fn(&mut T, u64),
    ) -> Answer<Holder<T>> {
        let call = format!("claim {}", self.view);
        let claim = FenceableTransactionalObject::init(self.inner, timeout, clock, get_epoch, set_epoch);
        held(self.recorded, self.view, call, claim).await
    }

    /// `FenceableTransactionalObject::init_with_epoch`.
    ///
    /// # Errors
    ///
    /// Those of the crate. The view is gone then.
    pub async fn claim_at(
        self,
        timeout: Duration,
        clock: Arc<dyn SystemClock>,
        epoch: u64,
        get_epoch: fn(&T) -> u64,
        set_epoch: fn(&mut T, u64),
    ) -> Answer<Holder<T>> {
        let call = format!("claim_at {} {epoch}", self.view);
        let claim = FenceableTransactionalObject::init_with_epoch(self.inner, timeout, clock, epoch, get_epoch, set_epoch);
        held(self.recorded, self.view, call, claim).await
    }
}

/// An update to a candidate, or else a refresh, and then where the object stands.
pub(crate) async fn moved<T: Clone + Send + Sync + 'static, O: TransactionalObject<T> + Send>(
    recorded: &Recorded<T>,
    view: u64,
    call: String,
    inner: &mut O,
    dirty: Option<DirtyObject<T>>,
) -> Answer<()> {
    let silent = dirty.is_some();
    let work = async {
        match dirty {
            Some(dirty) => inner.update(dirty).await?,
            None => {
                inner.refresh().await?;
            }
        }
        Ok((inner.id(), inner.object().clone()))
    };
    let said = |(id, value): &(MonotonicId, T)| recorded.view_words(view, *id, value);
    recorded.recorder.call(call, silent, work, said).await.map(|_| ())
}

macro_rules! recorded_object {
    ($object:ident, $refresh:literal, $update:literal) => {
        #[async_trait]
        impl<T: Clone + Send + Sync + 'static> TransactionalObject<T> for $object<T> {
            fn id(&self) -> MonotonicId {
                self.inner.id()
            }

            fn object(&self) -> &T {
                self.inner.object()
            }

            fn prepare_dirty(&self) -> Answer<DirtyObject<T>> {
                self.inner.prepare_dirty()
            }

            async fn refresh(&mut self) -> Result<&T, TransactionalObjectError> {
                let call = format!(concat!($refresh, " {}"), self.view);
                moved(&self.recorded, self.view, call, &mut self.inner, None).await?;
                Ok(self.inner.object())
            }

            async fn update(&mut self, dirty: DirtyObject<T>) -> Answer<()> {
                let call = format!(concat!($update, " {} {}"), self.view, self.recorded.words(&dirty.value));
                moved(&self.recorded, self.view, call, &mut self.inner, Some(dirty)).await
            }
        }
    };
}

recorded_object!(View, "refresh", "update");
recorded_object!(Holder, "holder_refresh", "holder_update");
