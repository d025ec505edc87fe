//! A store that records its calls.

use crate::recorder::Recorder;
use crate::rows::{hex, Name, PAGE};
use async_trait::async_trait;
use bytes::Bytes;
use futures::stream::{self, BoxStream, StreamExt};
use object_store::path::Path;
use object_store::{
    CopyOptions, Error, GetOptions, GetResult, GetResultPayload, ListResult, MultipartUpload, ObjectMeta, ObjectStore,
    ObjectStoreExt, PutMode, PutMultipartOptions, PutOptions, PutPayload, PutResult, Result,
};
use std::fmt;
use std::sync::Arc;

/// A store whose calls a recorder records, where they are of its object and made within its calls.
pub(crate) struct Stored {
    pub recorder: Recorder,
    pub store: Arc<dyn ObjectStore>,
}

impl fmt::Debug for Stored {
    fn fmt(&self, f: &mut fmt::Formatter<'_>) -> fmt::Result {
        write!(f, "{self}")
    }
}

impl fmt::Display for Stored {
    fn fmt(&self, f: &mut fmt::Formatter<'_>) -> fmt::Result {
        write!(f, "recorded {}", self.store)
    }
}

/// A reply, where it is one that an honest store may give; else nobody knows what became of the call.
fn reply<A>(word: &str, answer: &Result<A>, ok: impl FnOnce(&A) -> String) -> Option<String> {
    let said = match answer {
        Ok(answer) => ok(answer),
        Err(Error::NotFound { .. }) if word == "get" => "NotFound".into(),
        Err(Error::NotModified { .. }) => "NotModified".into(),
        Err(Error::AlreadyExists { .. }) => "AlreadyExists".into(),
        Err(Error::Precondition { .. }) => "Precondition".into(),
        Err(_) => return None,
    };
    Some(format!("{word} {said}"))
}

/// A result with its body at hand.
async fn whole(result: Result<GetResult>) -> Result<(Bytes, GetResult)> {
    let result = result?;
    let (meta, range, attributes) = (result.meta.clone(), result.range.clone(), result.attributes.clone());
    let bytes = result.bytes().await?;
    let body = bytes.clone();
    let payload = GetResultPayload::Stream(stream::once(async move { Ok(body) }).boxed());
    Ok((bytes, GetResult { payload, meta, range, attributes }))
}

/// The token of a file that was told.
fn token_of(recorder: &Recorder, name: Name, meta: &ObjectMeta, bytes: Option<&Bytes>) -> u64 {
    match name {
        Name::Version(_) if recorder.is_by_time() => meta.last_modified.timestamp_nanos() as u64,
        _ => recorder.token(name, meta.e_tag.as_deref(), bytes),
    }
}

/// The pages of a listing as the port asks for them: all of one moment, as far as the store's listing is.
fn record_pages(recorder: &Recorder, began: u64, mut files: Vec<(u64, ObjectMeta)>) {
    let at = recorder.now();
    files.sort_by_key(|file| file.0);
    let pages = files.len().div_ceil(PAGE).max(1);
    for page in 0..pages {
        let from = page * PAGE;
        if page > 0 {
            let after = Name::Version(files[from - 1].0);
            recorder.rows().ask(began, &format!("list root/test {PAGE} {after}"));
        }
        let mut reply = String::from(if page + 1 < pages { "list more" } else { "list last" });
        for (id, meta) in files.iter().skip(from).take(PAGE) {
            let name = Name::Version(*id);
            let token = token_of(recorder, name, meta, None);
            reply.push_str(&format!(" {name}:{token}:{}", recorder.size(meta.size)));
        }
        recorder.rows().reply(at, Some(reply));
    }
}

async fn delete(recorder: Recorder, store: Arc<dyn ObjectStore>, location: Path) -> Result<Path> {
    let name = recorder.files().name_of(&location);
    let asked = name.is_some_and(|name| recorder.rows().ask(recorder.now(), &format!("delete {name}")));
    let answer = store.delete(&location).await;
    if asked {
        recorder.rows().reply(recorder.now(), reply("delete", &answer, |()| "done".into()));
    }
    answer.map(|()| location)
}

#[async_trait]
impl ObjectStore for Stored {
    async fn put_opts(&self, location: &Path, payload: PutPayload, opts: PutOptions) -> Result<PutResult> {
        let recorder = &self.recorder;
        let Some(name) = recorder.files().name_of(location) else {
            return self.store.put_opts(location, payload, opts).await;
        };
        let bytes = Bytes::from(payload.clone());
        let told = hex(&recorder.told(name, &bytes));
        let request = match &opts.mode {
            PutMode::Create => format!("create {name} {told}"),
            PutMode::Overwrite => format!("overwrite {name} {told}"),
            PutMode::Update(version) => {
                let token = recorder.token(name, version.e_tag.as_deref(), None);
                format!("update {name} {token} {told}")
            }
        };
        let asked = recorder.rows().ask(recorder.now(), &request);
        let answer = self.store.put_opts(location, payload, opts).await;
        if asked {
            let at = recorder.now();
            let file = match &answer {
                Ok(_) if recorder.is_by_time() => self.store.get(location).await.ok().map(|got| got.meta),
                _ => None,
            };
            let token = |put: &PutResult| match &file {
                Some(meta) => token_of(recorder, name, meta, Some(&bytes)).to_string(),
                None => recorder.token(name, put.e_tag.as_deref(), Some(&bytes)).to_string(),
            };
            recorder.rows().reply(at, reply("put", &answer, token));
        }
        answer
    }

    async fn get_opts(&self, location: &Path, options: GetOptions) -> Result<GetResult> {
        let recorder = &self.recorder;
        let Some(name) = recorder.files().name_of(location) else {
            return self.store.get_opts(location, options).await;
        };
        let known = match &options.if_none_match {
            Some(tag) => recorder.token(name, Some(tag), None).to_string(),
            None => "-".into(),
        };
        let asked = recorder.rows().ask(recorder.now(), &format!("get {name} {known}"));
        let answer = whole(self.store.get_opts(location, options).await).await;
        if asked {
            let got = |(bytes, result): &(Bytes, GetResult)| {
                let token = token_of(recorder, name, &result.meta, Some(bytes));
                format!("{token} {}", hex(&recorder.told(name, bytes)))
            };
            recorder.rows().reply(recorder.now(), reply("get", &answer, got));
        }
        answer.map(|(_, result)| result)
    }

    fn list(&self, prefix: Option<&Path>) -> BoxStream<'static, Result<ObjectMeta>> {
        let (recorder, store, prefix) = (self.recorder.clone(), self.store.clone(), prefix.cloned());
        if !recorder.files().is_folder(prefix.as_ref()) {
            return store.list(prefix.as_ref());
        }
        // The store is asked in here: some list as they are called.
        let read = async move {
            let began = recorder.now();
            let asked = recorder.rows().ask(began, &format!("list root/test {PAGE}"));
            let files: Vec<_> = store.list(prefix.as_ref()).collect().await;
            if asked && files.iter().all(Result::is_ok) {
                let named = |file: &ObjectMeta| match recorder.files().name_of(&file.location) {
                    Some(Name::Version(id)) => Some((id, file.clone())),
                    _ => None,
                };
                record_pages(&recorder, began, files.iter().flatten().filter_map(named).collect());
            } else if asked {
                recorder.rows().reply(recorder.now(), None);
            }
            stream::iter(files)
        };
        stream::once(read).flatten().boxed()
    }

    fn delete_stream(&self, locations: BoxStream<'static, Result<Path>>) -> BoxStream<'static, Result<Path>> {
        let (recorder, store) = (self.recorder.clone(), self.store.clone());
        let one = move |location: Result<Path>| {
            let (recorder, store) = (recorder.clone(), store.clone());
            async move { delete(recorder, store, location?).await }
        };
        locations.then(one).boxed()
    }

    async fn put_multipart_opts(&self, location: &Path, opts: PutMultipartOptions) -> Result<Box<dyn MultipartUpload>> {
        self.store.put_multipart_opts(location, opts).await
    }

    async fn list_with_delimiter(&self, prefix: Option<&Path>) -> Result<ListResult> {
        self.store.list_with_delimiter(prefix).await
    }

    async fn copy_opts(&self, from: &Path, to: &Path, options: CopyOptions) -> Result<()> {
        self.store.copy_opts(from, to, options).await
    }
}
