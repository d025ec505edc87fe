//! Stores that do one thing otherwise than an honest one.

use async_trait::async_trait;
use futures::stream::{self, BoxStream, StreamExt};
use object_store::memory::InMemory;
use object_store::path::Path;
use object_store::*;
use std::fmt;
use std::sync::atomic::{AtomicBool, Ordering};
use std::sync::Arc;

/// What a store does otherwise than an honest one.
#[derive(Clone, Copy, PartialEq)]
pub enum Quirk {
    None,
    /// The first create of version 2 is made and answered `AlreadyExists`, as by a client that tries again by itself.
    TriesAgain,
    /// The first create of version 2 is made and answered with another error.
    Loses,
    /// A tag is that of the bytes.
    TagsOfBytes,
    /// A delete of what is not there fails.
    DeletesWhatIsThere,
    /// A listing leaves out the newest.
    ListsLate,
}

pub struct Quirky {
    store: Arc<InMemory>,
    quirk: Quirk,
    /// Whether the create that is answered otherwise was made.
    was_odd: AtomicBool,
}

impl Quirky {
    pub fn new(quirk: Quirk) -> Self {
        Self { store: Arc::new(InMemory::new()), quirk, was_odd: AtomicBool::new(false) }
    }
}

impl fmt::Debug for Quirky {
    fn fmt(&self, f: &mut fmt::Formatter<'_>) -> fmt::Result {
        f.write_str("Quirky")
    }
}

impl fmt::Display for Quirky {
    fn fmt(&self, f: &mut fmt::Formatter<'_>) -> fmt::Result {
        f.write_str("Quirky")
    }
}

fn tag(bytes: &[u8]) -> Option<String> {
    Some(format!("\"{bytes:?}\""))
}

#[async_trait]
impl ObjectStore for Quirky {
    async fn put_opts(&self, location: &Path, payload: PutPayload, opts: PutOptions) -> Result<PutResult> {
        let bytes = bytes::Bytes::from(payload.clone());
        let mut put = self.store.put_opts(location, payload, opts).await?;
        let is_odd = matches!(self.quirk, Quirk::TriesAgain | Quirk::Loses) && location.as_ref().contains("00000002");
        if is_odd && !self.was_odd.swap(true, Ordering::SeqCst) {
            return Err(match self.quirk {
                Quirk::Loses => Error::Generic { store: "Quirky", source: "lost".into() },
                _ => Error::AlreadyExists { path: location.to_string(), source: "by itself".into() },
            });
        }
        if self.quirk == Quirk::TagsOfBytes {
            put.e_tag = tag(&bytes);
        }
        Ok(put)
    }

    async fn get_opts(&self, location: &Path, options: GetOptions) -> Result<GetResult> {
        if self.quirk != Quirk::TagsOfBytes {
            return self.store.get_opts(location, options).await;
        }
        let got = self.store.get_opts(location, GetOptions::default()).await?;
        let mut meta = got.meta.clone();
        let bytes = got.bytes().await?;
        meta.e_tag = tag(&bytes);
        if options.if_none_match.is_some() && options.if_none_match == meta.e_tag {
            return Err(Error::NotModified { path: location.to_string(), source: "same".into() });
        }
        let range = 0..bytes.len() as u64;
        let payload = GetResultPayload::Stream(stream::once(async move { Ok(bytes) }).boxed());
        Ok(GetResult { payload, meta, range, attributes: Attributes::default() })
    }

    fn list(&self, prefix: Option<&Path>) -> BoxStream<'static, Result<ObjectMeta>> {
        let mut files: Vec<_> = futures::executor::block_on(self.store.list(prefix).collect());
        if self.quirk == Quirk::ListsLate {
            files.pop();
        }
        if self.quirk == Quirk::TagsOfBytes {
            for file in files.iter_mut().flatten() {
                let got = futures::executor::block_on(self.get_opts(&file.location, GetOptions::default()));
                file.e_tag = got.ok().and_then(|got| got.meta.e_tag);
            }
        }
        stream::iter(files).boxed()
    }

    fn delete_stream(&self, locations: BoxStream<'static, Result<Path>>) -> BoxStream<'static, Result<Path>> {
        let (store, strict) = (self.store.clone(), self.quirk == Quirk::DeletesWhatIsThere);
        let one = move |location: Result<Path>| {
            let store = store.clone();
            async move {
                let location = location?;
                if strict {
                    store.get(&location).await?;
                }
                store.delete(&location).await.map(|()| location)
            }
        };
        locations.then(one).boxed()
    }

    async fn put_multipart_opts(&self, _: &Path, _: PutMultipartOptions) -> Result<Box<dyn MultipartUpload>> {
        Err(Error::NotImplemented)
    }

    async fn list_with_delimiter(&self, _: Option<&Path>) -> Result<ListResult> {
        Err(Error::NotImplemented)
    }

    async fn copy_opts(&self, _: &Path, _: &Path, _: CopyOptions) -> Result<()> {
        Err(Error::NotImplemented)
    }
}

