//! A local file system with the conditional update that `object_store` has none of there, and the lock that `txnobj` takes for it.

use async_trait::async_trait;
use futures::stream::BoxStream;
use object_store::local::LocalFileSystem;
use object_store::path::Path;
use object_store::*;
use std::fmt;
use std::fs::{create_dir_all, OpenOptions};
use std::path::PathBuf;
use std::sync::Arc;

#[derive(Debug)]
pub struct WithUpdates {
    root: PathBuf,
    store: LocalFileSystem,
}

impl fmt::Display for WithUpdates {
    fn fmt(&self, f: &mut fmt::Formatter<'_>) -> fmt::Result {
        write!(f, "{} with updates", self.store)
    }
}

fn failed(error: std::io::Error) -> Error {
    Error::Generic { store: "WithUpdates", source: error.into() }
}

impl WithUpdates {
    pub fn new(root: &str) -> Arc<dyn ObjectStore> {
        let store = LocalFileSystem::new_with_prefix(root).expect("a folder");
        Arc::new(Self { root: root.into(), store })
    }

    /// Whatever the file is, its tag is compared and it is written under the lock.
    async fn update(&self, location: &Path, payload: PutPayload, known: Option<String>) -> Result<PutResult> {
        let path = self.root.join(format!("{location}#0"));
        create_dir_all(path.parent().expect("a folder")).map_err(failed)?;
        let lock = OpenOptions::new().create(true).append(true).open(path).map_err(failed)?;
        lock.lock().map_err(failed)?;
        let stands = match self.store.get(location).await {
            Ok(got) => got.meta.e_tag,
            Err(Error::NotFound { .. }) => None,
            Err(error) => return Err(error),
        };
        if stands.is_none() || stands != known {
            return Err(Error::Precondition { path: location.to_string(), source: "another tag".into() });
        }
        self.store.put_opts(location, payload, PutOptions { mode: PutMode::Overwrite, ..PutOptions::default() }).await
    }
}

#[async_trait]
impl ObjectStore for WithUpdates {
    async fn put_opts(&self, location: &Path, payload: PutPayload, opts: PutOptions) -> Result<PutResult> {
        match opts.mode {
            PutMode::Update(version) => self.update(location, payload, version.e_tag).await,
            _ => self.store.put_opts(location, payload, opts).await,
        }
    }

    async fn put_multipart_opts(&self, location: &Path, opts: PutMultipartOptions) -> Result<Box<dyn MultipartUpload>> {
        self.store.put_multipart_opts(location, opts).await
    }

    async fn get_opts(&self, location: &Path, options: GetOptions) -> Result<GetResult> {
        self.store.get_opts(location, options).await
    }

    fn list(&self, prefix: Option<&Path>) -> BoxStream<'static, Result<ObjectMeta>> {
        self.store.list(prefix)
    }

    fn delete_stream(&self, locations: BoxStream<'static, Result<Path>>) -> BoxStream<'static, Result<Path>> {
        self.store.delete_stream(locations)
    }

    async fn list_with_delimiter(&self, prefix: Option<&Path>) -> Result<ListResult> {
        self.store.list_with_delimiter(prefix).await
    }

    async fn copy_opts(&self, from: &Path, to: &Path, options: CopyOptions) -> Result<()> {
        self.store.copy_opts(from, to, options).await
    }
}
