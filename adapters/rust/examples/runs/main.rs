//! Runs of the unmodified crate, recorded.
//!
//!     runs memory DIR CLIENTS SEED CALLS ONE_IN        threads over one store in memory; one store call in ONE_IN fails (0: none)
//!     runs folder ROOT NAME DIARY CLIENT SEED CALLS    one process of several on a folder
//!     runs settled ROOT NAME DIARY CLIENT SEED CALLS   the same, with listings of one moment
//!     runs scene NAME DIR                              one thing that is otherwise, or that is told otherwise
//!     runs hunt ROOT SECONDS                           how often a reader beside a collection is told that there is no version

mod clients;
mod flaky;
mod quirks;
mod records;
mod scenes;
mod updates;

use clients::Client;
use flaky::{Flaky, Random};
use object_store::memory::InMemory;
use object_store::path::Path;
use object_store::ObjectStore;
use records::{block_on, record, Form, Opened, Protocol, Record, Text};
use slatedb_txn_obj::{
    BoundaryObject, MonotonicId, SequencedStorageProtocol, SimpleTransactionalObject, TransactionalObject, TransactionalStorageProtocol,
};
use slatedb_txn_obj_recorder::Settled;
use std::sync::{Arc, Mutex};
use std::time::{Duration, Instant};
use updates::WithUpdates;

fn memory(dir: &str, clients: u64, seed: u64, calls: u64, one_in: u64) {
    std::fs::create_dir_all(dir).expect("a folder");
    let store: Arc<dyn ObjectStore> = Arc::new(InMemory::new());
    let threads = (1..=clients).map(|client| {
        let random = Mutex::new(Random::new(seed + 100 * client));
        let store: Arc<dyn ObjectStore> = Arc::new(Flaky { store: store.clone(), random, one_in });
        let diary = format!("{dir}/{client}.diary");
        let opened = Opened { root: &Path::from("some/db"), store, name: "manifest", diary: &diary, client };
        let object = opened.recorded(Form::Text);
        std::thread::spawn(move || block_on(Client::new(object, seed + client).run(calls)).report(client))
    });
    for thread in threads.collect::<Vec<_>>() {
        thread.join().expect("a client");
    }
}

/// One process of several on a folder.
struct OnFolder<'a> {
    root: &'a str,
    name: &'a str,
    diary: &'a str,
    client: u64,
}

impl OnFolder<'_> {
    fn run(&self, seed: u64, calls: u64, is_settled: bool) {
        let store = WithUpdates::new(self.root);
        let store = if is_settled { Arc::new(Settled(store)) } else { store };
        let opened = Opened { root: &Path::from(""), store, name: self.name, diary: self.diary, client: self.client };
        block_on(Client::new(opened.recorded(Form::Text), seed + self.client).run(calls)).report(self.client);
    }
}

fn hunted(root: &str) -> Arc<Protocol> {
    Arc::new(Protocol::new(&Path::from(""), WithUpdates::new(root), "hunted", "val", Box::new(Text)))
}

/// Reads with empty caches until a time, and counts the versions, the answers that there is none, and the errors.
fn read_until(root: &str, end: Instant) -> [u64; 3] {
    let mut told = [0; 3];
    while Instant::now() < end {
        match block_on(TransactionalStorageProtocol::try_read_latest(&*hunted(root))) {
            Ok(Some(_)) => told[0] += 1,
            Ok(None) => told[1] += 1,
            Err(_) => told[2] += 1,
        }
    }
    told
}

/// How often a reader with empty caches is told that there is no version, while there always is one: a writer collects meanwhile.
fn hunt(root: &str, seconds: u64) {
    let end = Instant::now() + Duration::from_secs(seconds);
    let writer = hunted(root);
    let first = SimpleTransactionalObject::init(writer.clone() as Arc<_>, record(0, 1));
    let mut view: SimpleTransactionalObject<Record> = block_on(first).expect("the first version");
    let read = |root: String| move || read_until(&root, end);
    let readers: Vec<_> = (0..3).map(|_| std::thread::spawn(read(root.into()))).collect();
    while Instant::now() < end {
        let mut dirty = view.prepare_dirty().expect("a candidate");
        dirty.value.payload += 1;
        block_on(view.update(dirty)).expect("an update");
        let newest = view.id().id();
        block_on(writer.advance(MonotonicId::new(newest - 1))).expect("an advance");
        block_on(writer.delete(MonotonicId::new(newest - 1))).expect("a delete");
    }
    let mut all = [0; 3];
    for reader in readers {
        for (sum, told) in all.iter_mut().zip(reader.join().expect("a reader")) {
            *sum += told;
        }
    }
    let [found, none, errors] = all;
    println!("{} versions, one at each moment: {found} reads found one, {none} none, {errors} had an error", view.id().id());
}

fn main() {
    let args: Vec<String> = std::env::args().skip(1).collect();
    let words: Vec<&str> = args.iter().map(String::as_str).collect();
    let number = |word: &str| word.parse::<u64>().expect("a number");
    match words[..] {
        ["memory", dir, clients, seed, calls, one_in] => {
            memory(dir, number(clients), number(seed), number(calls), number(one_in))
        }
        [kind @ ("folder" | "settled"), root, name, diary, client, seed, calls] => {
            let client = OnFolder { root, name, diary, client: number(client) };
            client.run(number(seed), number(calls), kind == "settled")
        }
        ["scene", name, dir] => scenes::play(name, dir),
        ["hunt", root, seconds] => hunt(root, number(seconds)),
        _ => {
            eprintln!("usage: runs memory|folder|settled|scene|hunt ..: the head of the source has them");
            std::process::exit(2);
        }
    }
}
