//! A holder whose calls are recorded.

use crate::object::Recorded;
use crate::recorder::Answer;
use slatedb_txn_obj::{FenceableTransactionalObject, TransactionalObject};
use std::future::Future;
use std::sync::Arc;

/// A `FenceableTransactionalObject` whose calls are recorded.
pub struct Holder<T: Clone> {
    pub(crate) recorded: Arc<Recorded<T>>,
    pub(crate) inner: FenceableTransactionalObject<T>,
    pub(crate) view: u64,
}

/// The holder that a claim makes of a view.
pub(crate) async fn held<T: Clone + Send + Sync + 'static>(
    recorded: Arc<Recorded<T>>,
    view: u64,
    call: String,
    claim: impl Future<Output = Answer<FenceableTransactionalObject<T>>>,
) -> Answer<Holder<T>> {
    let said = |holder: &FenceableTransactionalObject<T>| {
        let value = recorded.words(holder.object());
        format!("holder {view} at {} {value} epoch {}", holder.id().id(), holder.local_epoch())
    };
    let inner = recorded.recorder.call(call, false, claim, said).await?;
    Ok(Holder { recorded, inner, view })
}

impl<T: Clone + Send + Sync> Holder<T> {
    /// `FenceableTransactionalObject::local_epoch`.
    pub fn local_epoch(&self) -> u64 {
        self.inner.local_epoch()
    }
}
