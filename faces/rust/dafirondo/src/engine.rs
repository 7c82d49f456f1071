//! The log, shared by threads.

use std::path::{Path, PathBuf};
use std::sync::{Mutex, MutexGuard};

use crate::batch::LogBatch;
use crate::config::{Config, RecoveryMode};
use crate::error::{Error, Result};
use crate::group_commit::{GroupCommit, Sink};
use crate::message::{Message, MessageExt};
use crate::raw::{self, Handle};

/// A log that is open. Threads share it by reference.
///
/// - Writers that wait at the same time are merged: one of them writes all their batches, and then syncs once.
/// - A reader has the log alone while it reads, and waits for a round of writers and its sync.
/// - When it is dropped, the log is closed; `close` also tells whether that succeeded.
pub struct Engine {
    handle: Mutex<Handle>,
    writers: GroupCommit,
    path: String,
}

impl Sink for MutexGuard<'_, Handle> {
    fn write(&mut self, bytes: &[u8]) -> Result<usize> {
        Handle::write(self, bytes, false)
    }

    fn sync(&mut self) -> Result<()> {
        Handle::sync(self)
    }
}

impl Engine {
    /// Opens the log of these settings. Fails with `Directory` if another log uses its directory.
    pub fn open(config: Config) -> Result<Engine> {
        let handle = Handle::open(&config.to_toml(), config.log_descriptor.unwrap_or(-1))?;
        Ok(Engine {
            handle: Mutex::new(handle),
            writers: GroupCommit::default(),
            path: config.dir,
        })
    }

    /// Closes the log. If it succeeds, all batches are durable.
    pub fn close(self) -> Result<()> {
        let handle = self.handle.into_inner().unwrap_or_else(|poisoned| poisoned.into_inner());
        handle.close()
    }

    /// The main directory.
    pub fn path(&self) -> &str {
        &self.path
    }

    /// Writes a batch as one record, empties the batch, and returns the record's length. Batches of other threads may be
    /// in the same record, if they touch other groups. With `sync`, makes this record and all earlier ones durable. If it
    /// fails, the batch keeps its items; with `Failed` it may be in the log or not.
    pub fn write(&self, log_batch: &mut LogBatch, sync: bool) -> Result<usize> {
        if log_batch.is_empty() {
            if sync {
                self.sync()?;
            }
            return Ok(0);
        }
        let batch = std::mem::take(log_batch);
        let (batch, written) = self.writers.write(batch, sync, || self.lock());
        *log_batch = batch;
        let len = written?;
        log_batch.clear();
        Ok(len)
    }

    /// Makes all batches durable.
    pub fn sync(&self) -> Result<()> {
        self.lock().sync()
    }

    /// Drops a group's entries below an index, without a sync. Returns how many.
    pub fn compact_to(&self, region_id: u64, index: u64) -> Result<u64> {
        self.lock().compact_to(region_id, index)
    }

    /// Purges what is past the thresholds in the settings. Returns the groups that the caller should compact.
    pub fn purge_expired_files(&self) -> Result<Vec<u64>> {
        self.lock().purge()
    }

    /// Does one step of a purge, which copies groups until it has copied `budget` bytes, but at least one group. Returns
    /// the groups that the caller should compact, and whether more may be due. raft-engine has no such call.
    pub fn purge_some(&self, budget: u64) -> Result<(Vec<u64>, bool)> {
        self.lock().purge_some(budget)
    }

    /// Compacts the rewrite queue, whatever its size is.
    pub fn must_rewrite_rewrite_queue(&self) -> Result<()> {
        self.lock().must_rewrite_rewrite_queue()
    }

    /// Rewrites the append queue up to the file with the number `watermark`: at most the last file, which is also the
    /// default. With `exit_after_step` it ends after the first or the second of three steps: the queue is synced and
    /// rotated, all groups are written to the rewrite queue, and the files are removed.
    pub fn must_rewrite_append_queue(
        &self,
        watermark: Option<u64>,
        exit_after_step: Option<u64>,
    ) -> Result<()> {
        self.lock().must_rewrite_append_queue(watermark, exit_after_step)
    }

    /// Removes all files from both queues that have nothing in use.
    pub fn must_purge_all_stale(&self) -> Result<()> {
        self.lock().must_purge_all_stale()
    }

    /// Copies the log of these settings, which nobody has open, into a directory, which it makes. The log doesn't change.
    /// Fails with `InvalidArgument` if the settings recycle files or tolerate any corruption, or if the target is in the
    /// log's directories. Fails with `Io` if the target is there already.
    pub fn fork<T: AsRef<Path>>(source: &Config, target: T) -> Result<CopyDetails> {
        let target = utf8(target.as_ref())?;
        let copied = raw::fork(&source.to_toml(), source.log_descriptor.unwrap_or(-1), target)?;
        let copied = match copied {
            Some(bytes) => Texts(&bytes).map(|path| String::from_utf8_lossy(path).into_owned().into()).collect(),
            None => files_in(target)?,
        };
        Ok(CopyDetails { copied, symlinked: Vec::new() })
    }

    /// Checks the log in a directory, which nobody has open, for holes in its entries. Returns each group that has one, and
    /// the index before its first hole. Reads what an open under `TolerateAnyCorruption` would read, and changes no file.
    /// Fails with `InvalidArgument` if there is no such directory.
    pub fn consistency_check(path: &Path) -> Result<Vec<(u64, u64)>> {
        if !path.exists() {
            return Err(Error::InvalidArgument(format!("No such directory: {}", path.display())));
        }
        let settings = Config {
            dir: utf8(path)?.to_owned(),
            recovery_mode: RecoveryMode::TolerateAnyCorruption,
            ..Config::default()
        };
        let bytes = raw::check(&settings.to_toml(), settings.log_descriptor.unwrap_or(-1))?;
        let number = |half: &[u8]| u64::from_le_bytes(half.try_into().unwrap_or_default());
        Ok(bytes.chunks_exact(16).map(|hole| (number(&hole[..8]), number(&hole[8..]))).collect())
    }

    /// The index of a group's first entry.
    pub fn first_index(&self, region_id: u64) -> Result<Option<u64>> {
        self.lock().first_index(region_id)
    }

    /// The index of a group's last entry.
    pub fn last_index(&self, region_id: u64) -> Result<Option<u64>> {
        self.lock().last_index(region_id)
    }

    /// The groups in which something is, in ascending order.
    pub fn raft_groups(&self) -> Result<Vec<u64>> {
        self.lock().groups()
    }

    /// Whether nothing is in any group.
    pub fn is_empty(&self) -> Result<bool> {
        Ok(self.raft_groups()?.is_empty())
    }

    /// The value of a group's key.
    pub fn get(&self, region_id: u64, key: &[u8]) -> Result<Option<Vec<u8>>> {
        Ok(self.lock().get(region_id, key)?.map(<[u8]>::to_vec))
    }

    /// The value of a group's key, as a message.
    pub fn get_message<S: Message>(&self, region_id: u64, key: &[u8]) -> Result<Option<S>> {
        self.lock().get(region_id, key)?.map(S::parse).transpose()
    }

    /// The entry of a group at an index.
    pub fn get_entry<M: MessageExt>(&self, region_id: u64, log_idx: u64) -> Result<Option<M::Entry>> {
        self.lock().entry(region_id, log_idx)?.map(M::Entry::parse).transpose()
    }

    /// Appends to `vec` the entries of a group from `begin` on, below `end`, and returns how many: always the first, and
    /// then more while the sum of their lengths is at most `max_size`. If it fails, nothing is appended.
    pub fn fetch_entries_to<M: MessageExt>(
        &self,
        region_id: u64,
        begin: u64,
        end: u64,
        max_size: Option<usize>,
        vec: &mut Vec<M::Entry>,
    ) -> Result<usize> {
        let mut handle = self.lock();
        let (bytes, count) = handle.fetch(region_id, begin, end, max_size.unwrap_or(usize::MAX))?;
        let old = vec.len();
        for entry in Texts(bytes) {
            match M::Entry::parse(entry) {
                Ok(entry) => vec.push(entry),
                Err(error) => {
                    vec.truncate(old);
                    return Err(error);
                }
            }
        }
        Ok(count)
    }

    /// Calls back with each key of a group from `start_key` on and below `end_key`, in order or backwards, until a call
    /// returns false. They are copied first, so the callback may use the log.
    pub fn scan_raw_messages<C: FnMut(&[u8], &[u8]) -> bool>(
        &self,
        region_id: u64,
        start_key: Option<&[u8]>,
        end_key: Option<&[u8]>,
        reverse: bool,
        mut callback: C,
    ) -> Result<()> {
        let bytes = self.lock().scan(region_id, start_key, end_key, reverse)?.to_vec();
        let mut texts = Texts(&bytes);
        while let (Some(key), Some(value)) = (texts.next(), texts.next()) {
            if !callback(key, value) {
                break;
            }
        }
        Ok(())
    }

    /// Calls back as `scan_raw_messages` does, with the values as messages. A value that is none is skipped.
    pub fn scan_messages<S: Message, C: FnMut(&[u8], S) -> bool>(
        &self,
        region_id: u64,
        start_key: Option<&[u8]>,
        end_key: Option<&[u8]>,
        reverse: bool,
        mut callback: C,
    ) -> Result<()> {
        self.scan_raw_messages(region_id, start_key, end_key, reverse, |key, value| match S::parse(value) {
            Ok(message) => callback(key, message),
            Err(_) => true,
        })
    }

    /// The handle, for one call.
    fn lock(&self) -> MutexGuard<'_, Handle> {
        self.handle.lock().unwrap_or_else(|poisoned| poisoned.into_inner())
    }
}

/// What a fork copied.
#[derive(Clone, Debug, Default, PartialEq, Eq)]
pub struct CopyDetails {
    /// The paths of the copies.
    pub copied: Vec<PathBuf>,
    /// Empty: each file is copied.
    pub symlinked: Vec<PathBuf>,
}

/// A path as UTF-8. Fails with `InvalidArgument` for another one.
fn utf8(path: &Path) -> Result<&str> {
    path.to_str().ok_or_else(|| Error::InvalidArgument(format!("a path that is no UTF-8: {}", path.display())))
}

/// The paths of the files in a directory.
fn files_in(directory: &str) -> Result<Vec<PathBuf>> {
    let listed = || Ok(std::fs::read_dir(directory)?.map(|entry| Ok(entry?.path())).collect::<Vec<_>>());
    let paths: std::io::Result<Vec<_>> = listed().and_then(|paths| paths.into_iter().collect());
    paths.map_err(|error| Error::Io(error.to_string()))
}

/// Texts that follow each other, each with its length before it.
struct Texts<'a>(&'a [u8]);

impl<'a> Iterator for Texts<'a> {
    type Item = &'a [u8];

    fn next(&mut self) -> Option<&'a [u8]> {
        let (len, rest) = self.0.split_first_chunk::<4>()?;
        let (text, rest) = rest.split_at_checked(u32::from_le_bytes(*len) as usize)?;
        self.0 = rest;
        Some(text)
    }
}

// Threads share an engine.
const _: fn() = || {
    fn is_shared<T: Send + Sync>() {}
    is_shared::<Engine>();
};

