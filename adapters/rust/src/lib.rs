//! Writes down what a client of the unmodified crate `slatedb-txn-obj` does, row by row, for `txnobj audit`, which says whether the
//! recordings of all clients are one history.
//!
//! ```ignore
//! let recorder = Recorder::new("7.diary", 7, Object::new(&root, "manifest", "manifest"), prefixed(MyCodec, |it| it.epoch))?;
//! let store = recorder.store(store); // any `dyn ObjectStore`
//! let protocol = Arc::new(ObjectStoreSequencedStorageProtocol::new(&root, store, "manifest", "manifest", Box::new(MyCodec)));
//! let object = recorder.object(protocol, MyCodec); // also a `SequencedStorageProtocol`, for the crate's own objects
//! let mut view = object.load().await?; // a `TransactionalObject`
//! let mut holder = view.claim(timeout, clock, get_epoch, set_epoch).await?; // another: what `FenceableTransactionalObject::init` makes
//! ```
//!
//! A recorder is of one client: one protocol from its birth on, with its caches, which makes one call at a time; calls of other tasks
//! wait. Store calls outside of recorded calls, and those of other files, pass through and are not recorded.

mod holders;
mod object;
mod recorder;
mod rows;
mod settled;
mod store;
mod telling;
mod views;

pub use holders::Holder;
pub use object::Recorded;
pub use recorder::Recorder;
pub use rows::Object;
pub use settled::Settled;
pub use telling::{digested, plain, prefixed, Telling};
pub use views::View;
