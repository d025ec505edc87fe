//! Scenes: each of one thing that the port's client does otherwise, or that a recording tells otherwise. Clients take turns over one
//! store in memory, so that each scene is the same each time.

use crate::quirks::{Quirk, Quirky};
use crate::records::{block_on, get_epoch, record, set_epoch, Form, Opened, Record};
use object_store::path::Path;
use object_store::ObjectStore;
use slatedb_common::clock::DefaultSystemClock;
use slatedb_txn_obj::{
    BoundaryObject, DirtyObject, FenceableTransactionalObject, MonotonicId, SimpleTransactionalObject, TransactionalObject,
};
use slatedb_txn_obj_recorder::{Recorded, View};
use std::ops::Bound::Unbounded;
use std::sync::Arc;
use std::time::Duration;

type Object = Arc<Recorded<Record>>;
const LONG: Duration = Duration::from_secs(20);

fn id(n: u64) -> MonotonicId {
    MonotonicId::new(n)
}

fn clock() -> Arc<DefaultSystemClock> {
    Arc::new(DefaultSystemClock::new())
}

/// Writes versions on the newest, as so many updates of one view.
async fn update(object: &Object, times: u64) {
    let mut view = object.load().await.expect("a version");
    for n in 0..times {
        let mut dirty = view.prepare_dirty().expect("a candidate");
        dirty.value.payload += n;
        view.update(dirty).await.expect("an update");
    }
}

/// A client deletes an id above the version that it has cached, which the boundary has reached: the port drops the version.
async fn stale_delete(a: &Object, b: &Object) {
    a.init(record(0, 1)).await.expect("the first");
    update(b, 5).await;
    b.advance(id(4)).await.expect("done");
    a.delete(id(3)).await.expect("done");
    a.try_read_latest().await.expect("a version");
}

/// A holder writes a value of another epoch, which the crate writes.
async fn other_epoch(a: &Object, _: &Object) {
    let view = a.init(record(0, 1)).await.expect("the first");
    let mut holder = view.claim(LONG, clock(), get_epoch, set_epoch).await.expect("held");
    let mut dirty = holder.prepare_dirty().expect("a candidate");
    dirty.value = record(7, 2);
    holder.update(dirty).await.expect("the crate writes it");
}

/// An update of another id than the view's, and one that an invariant refuses, ask nothing of the store: nothing is recorded.
async fn refused_early(a: &Object, _: &Object) {
    let view = a.init(record(0, 1)).await.expect("the first");
    let even = Arc::new(|dirty: &Record, _: &Record| match dirty.payload % 2 {
        0 => Ok(()),
        _ => Err("odd".into()),
    });
    let mut view = view.with_invariants(vec![even]);
    view.update(DirtyObject { id: id(5), value: record(0, 2) }).await.expect_err("another id");
    view.update(DirtyObject { id: id(1), value: record(0, 3) }).await.expect_err("odd");
    view.update(DirtyObject { id: id(1), value: record(0, 4) }).await.expect("even");
    a.list(Unbounded, Unbounded).await.expect("a listing");
}

/// A store that answers a create that it made as one that another made.
async fn tries_again(a: &Object, b: &Object) {
    let mut view = a.init(record(0, 1)).await.expect("the first");
    view.update(DirtyObject { id: id(1), value: record(0, 2) }).await.expect_err("a conflict with itself");
    b.try_read_latest().await.expect("a version");
}

/// A version that is made once more with the same bytes, where a tag is that of the bytes.
async fn same_bytes(a: &Object, b: &Object) {
    a.init(record(0, 1)).await.expect("the first");
    update(b, 2).await;
    b.advance(id(2)).await.expect("done");
    b.delete(id(1)).await.expect("done");
    a.init(record(0, 1)).await.map(|_| ()).expect_err("the boundary has reached it");
    b.list(Unbounded, Unbounded).await.expect("a listing");
}

/// A delete of what is gone, which the store answers with an error.
async fn gone_already(a: &Object, b: &Object) {
    a.init(record(0, 1)).await.expect("the first");
    update(b, 2).await;
    b.advance(id(2)).await.expect("done");
    b.delete(id(1)).await.expect("done");
    a.delete(id(1)).await.expect_err("it is gone");
    a.try_read_latest().await.expect("a version");
}

/// A collector's listing that leaves out the newest.
async fn lists_late(a: &Object, b: &Object) {
    a.init(record(0, 1)).await.expect("the first");
    update(a, 2).await;
    b.list(Unbounded, Unbounded).await.expect("a listing");
}

/// A lost create that landed, was seen and was collected; its client then finds nothing.
async fn landed_and_collected(a: &Object, b: &Object) {
    let mut view = a.init(record(0, 1)).await.expect("the first");
    view.update(DirtyObject { id: id(1), value: record(0, 2) }).await.expect_err("lost");
    update(b, 3).await;
    b.advance(id(3)).await.expect("done");
    b.delete(id(2)).await.expect("done");
    view.refresh().await.expect("a version");
}

/// The crate's own objects over the recorded protocol: no view and no holder is recorded, and each check twice.
async fn own_objects(a: &Object, b: &Object) {
    let mut view = SimpleTransactionalObject::init(a.clone() as Arc<_>, record(0, 1)).await.expect("the first");
    let other = SimpleTransactionalObject::load(b.clone() as Arc<_>).await.expect("a version");
    let mut holder = FenceableTransactionalObject::init(other, LONG, clock(), get_epoch, set_epoch).await.expect("held");
    for n in 0..4 {
        let mut dirty = holder.prepare_dirty().expect("a candidate");
        dirty.value.payload = 10 + n;
        holder.update(dirty).await.expect("an update");
        let mut dirty = view.prepare_dirty().expect("a candidate");
        dirty.value.payload = 20 + n;
        let _ = view.update(dirty).await;
        view.refresh().await.expect("a version");
        let claimed = FenceableTransactionalObject::init(view.clone(), LONG, clock(), get_epoch, set_epoch).await.expect("held");
        holder.refresh().await.map(|_| ()).expect_err("fenced");
        holder = claimed;
    }
    a.advance(id(3)).await.expect("done");
    for file in b.list(Unbounded, std::ops::Bound::Excluded(id(4))).await.expect("a listing") {
        b.delete(file.id).await.expect("done");
    }
}

/// Tasks that share one client: their calls are made one after another.
async fn tasks(a: &Object, b: &Object) {
    a.init(record(0, 1)).await.expect("the first");
    let add = |object: Object| async move {
        let mut view = object.load().await.expect("a version");
        let one_more = |view: &View<Record>| {
            let mut dirty = view.prepare_dirty().map_err(std::io::Error::other)?;
            dirty.value.payload += 1;
            Ok::<_, std::io::Error>(Some(dirty))
        };
        view.maybe_apply_update(one_more).await.expect("an update");
    };
    futures::future::join_all((0..9).map(|n| add(if n % 3 < 2 { a } else { b }.clone()))).await;
    assert_eq!(a.load().await.expect("a version").object().payload, 10);
}

/// More versions than a page has.
async fn pages(a: &Object, b: &Object) {
    a.init(record(0, 1)).await.expect("the first");
    update(a, 1100).await;
    b.try_read_latest().await.expect("a version");
    b.list(Unbounded, Unbounded).await.expect("a listing");
}

fn form_of(name: &str) -> Form {
    match name {
        "binary" => Form::Binary,
        "digests" => Form::Digests,
        _ => Form::Text,
    }
}

fn quirk_of(name: &str) -> Quirk {
    match name {
        "tries_again" => Quirk::TriesAgain,
        "landed_and_collected" => Quirk::Loses,
        "same_bytes" => Quirk::TagsOfBytes,
        "gone_already" => Quirk::DeletesWhatIsThere,
        "lists_late" => Quirk::ListsLate,
        _ => Quirk::None,
    }
}

/// Plays a scene of two clients, each recorded in the folder.
pub fn play(name: &str, dir: &str) {
    std::fs::create_dir_all(dir).expect("a folder");
    let store: Arc<dyn ObjectStore> = Arc::new(Quirky::new(quirk_of(name)));
    let client = |client: u64| {
        let (root, diary) = (Path::from("some/db"), format!("{dir}/{client}.diary"));
        Opened { root: &root, store: store.clone(), name: "manifest", diary: &diary, client }.recorded(form_of(name))
    };
    let (a, b) = (&client(1), &client(2));
    block_on(async move {
        match name {
            "stale_delete" => stale_delete(a, b).await,
            "other_epoch" => other_epoch(a, b).await,
            "refused_early" => refused_early(a, b).await,
            "tries_again" => tries_again(a, b).await,
            "same_bytes" => same_bytes(a, b).await,
            "gone_already" => gone_already(a, b).await,
            "lists_late" => lists_late(a, b).await,
            "landed_and_collected" => landed_and_collected(a, b).await,
            "own_objects" | "binary" | "digests" => own_objects(a, b).await,
            "tasks" => tasks(a, b).await,
            "pages" => pages(a, b).await,
            _ => panic!("no scene {name}"),
        }
    });
}
