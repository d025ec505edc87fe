//! A client that makes calls at random.

use crate::flaky::Random;
use crate::records::{by_time, get_epoch, record, set_epoch, Record};
use slatedb_common::clock::DefaultSystemClock;
use slatedb_txn_obj::{BoundaryObject, MonotonicId, TransactionalObject, TransactionalObjectError};
use slatedb_txn_obj_recorder::{Holder, Recorded, View};
use std::io;
use std::ops::Bound::{Excluded, Included, Unbounded};
use std::sync::Arc;
use std::time::Duration;

type E = TransactionalObjectError;

/// How many views a client keeps, how long a claim may take, and how long any call.
const VIEWS: usize = 4;
const CLAIM: Duration = Duration::from_millis(20);
const CALL: Duration = Duration::from_millis(30);

pub struct Client {
    object: Arc<Recorded<Record>>,
    views: Vec<View<Record>>,
    holder: Option<Holder<Record>>,
    /// The newest version that a checked call told, and its epoch.
    known: (u64, u64),
    random: Random,
    told: u64,
}

/// How the calls of a client ended.
#[derive(Default)]
pub struct Ends {
    done: u64,
    fenced: u64,
    refused: u64,
    dropped: u64,
}

impl Ends {
    pub fn report(&self, client: u64) {
        let Ends { done, fenced, refused, dropped } = self;
        eprintln!("client {client}: done {done} fenced {fenced} refused {refused} dropped {dropped}");
    }
}

impl Client {
    pub fn new(object: Arc<Recorded<Record>>, seed: u64) -> Self {
        Self { object, views: Vec::new(), holder: None, known: (0, 0), random: Random::new(seed), told: 0 }
    }

    fn knows(&mut self, id: MonotonicId, value: &Record) {
        if id.id() > self.known.0 {
            self.known = (id.id(), value.epoch);
        }
    }

    /// An id near the newest that it knows.
    fn near(&mut self) -> u64 {
        (self.known.0 + 2).saturating_sub(self.random.below(5))
    }

    async fn collect(&mut self) -> Result<(), E> {
        let Some((id, value)) = self.object.try_read_latest().await? else { return Ok(()) };
        self.knows(id, &value);
        self.object.advance(MonotonicId::new(id.id() - 1)).await?;
        for file in self.object.list(Unbounded, Excluded(id)).await? {
            self.object.delete(file.id).await?;
        }
        Ok(())
    }

    async fn read(&mut self) -> Result<(), E> {
        if let Some((id, value)) = self.object.try_read_latest().await? {
            self.knows(id, &value);
        }
        Ok(())
    }

    async fn write(&mut self) -> Result<(), E> {
        let base = (self.known.0 > 0).then(|| MonotonicId::new(self.known.0));
        let value = record(self.known.1, self.told);
        let id = self.object.write(base, &value).await?;
        self.knows(id, &value);
        Ok(())
    }

    async fn load(&mut self) -> Result<(), E> {
        if let Some(view) = self.object.try_load().await? {
            self.knows(view.id(), &view.object().clone());
            self.views.push(view);
        }
        Ok(())
    }

    async fn refresh(&mut self, at: usize) -> Result<(), E> {
        self.views[at].refresh().await?;
        let (id, value) = (self.views[at].id(), *self.views[at].object());
        self.knows(id, &value);
        Ok(())
    }

    async fn update(&mut self, at: usize) -> Result<(), E> {
        let told = self.told;
        let mutator = |view: &View<Record>| {
            let mut dirty = view.prepare_dirty().map_err(io::Error::other)?;
            dirty.value.payload = told;
            Ok::<_, io::Error>(Some(dirty))
        };
        self.views[at].maybe_apply_update(mutator).await?;
        let (id, value) = (self.views[at].id(), *self.views[at].object());
        self.knows(id, &value);
        Ok(())
    }

    async fn claim(&mut self, at: usize, is_next: bool) -> Result<(), E> {
        let view = self.views.remove(at);
        let clock = Arc::new(DefaultSystemClock::new());
        let holder = if is_next {
            view.claim(CLAIM, clock, get_epoch, set_epoch).await?
        } else {
            let epoch = view.object().epoch + self.random.below(3);
            view.claim_at(CLAIM, clock, epoch, get_epoch, set_epoch).await?
        };
        self.knows(holder.id(), &holder.object().clone());
        self.holder = Some(holder);
        Ok(())
    }

    /// Once a call of a holder is refused, the holder is let go.
    async fn hold(&mut self) -> Result<(), E> {
        let Some(mut holder) = self.holder.take() else { return Ok(()) };
        let mut dirty = holder.prepare_dirty()?;
        dirty.value.payload = self.told;
        let updated = holder.update(dirty).await;
        if matches!(updated, Err(E::ObjectVersionExists)) {
            holder.refresh().await?;
        }
        self.knows(holder.id(), &holder.object().clone());
        self.holder = Some(holder);
        Ok(())
    }

    async fn refresh_holder(&mut self) -> Result<(), E> {
        if let Some(mut holder) = self.holder.take() {
            holder.refresh().await?;
            self.holder = Some(holder);
        }
        Ok(())
    }

    async fn advance(&mut self) -> Result<(), E> {
        let low = (self.known.0 - 1).saturating_sub(self.random.below(3));
        self.object.advance(MonotonicId::new(low)).await
    }

    async fn call(&mut self) -> Result<(), E> {
        self.told += 1;
        let (near, choice) = (self.near(), self.random.below(40));
        let low = MonotonicId::new(near.min(self.known.0));
        let at = self.random.below(self.views.len() as u64) as usize;
        match choice {
            0..=5 => self.read().await,
            6..=9 => self.write().await,
            10 if self.known.0 == 0 => {
                self.views.push(self.object.init(record(0, self.told)).await?);
                Ok(())
            }
            10..=12 if self.views.len() < VIEWS => self.load().await,
            13..=14 if !self.views.is_empty() => self.refresh(at).await,
            15..=19 if !self.views.is_empty() => self.update(at).await,
            20..=21 if !self.views.is_empty() => self.claim(at, choice == 20).await,
            22..=27 => self.hold().await,
            28..=29 => self.refresh_holder().await,
            30..=31 => self.object.list(Included(MonotonicId::new(near)), Unbounded).await.map(drop),
            32..=33 => self.object.try_read_unchecked(MonotonicId::new(near)).await.map(drop),
            34 => self.object.check(low).await,
            35 if self.known.0 > 1 => self.advance().await,
            36 => self.object.delete(low).await,
            37 => self.collect().await,
            _ => Ok(()),
        }
    }

    /// Makes so many calls, each of which is dropped where it takes too long.
    pub async fn run(&mut self, calls: u64) -> Ends {
        let mut ends = Ends::default();
        for _ in 0..calls {
            if by_time() {
                // (so that two versions seldom have one time)
                std::thread::sleep(Duration::from_millis(self.random.below(30)));
            }
            match tokio::time::timeout(CALL, self.call()).await {
                Ok(Ok(())) => ends.done += 1,
                Ok(Err(E::Fenced)) => ends.fenced += 1,
                Ok(Err(_)) => ends.refused += 1,
                Err(_) => ends.dropped += 1,
            }
        }
        ends
    }
}
