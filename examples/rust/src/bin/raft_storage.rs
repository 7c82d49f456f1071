//! raft-rs's `Storage` over one group of a log. `mod raft` restates the trait and its types, since an example needs no
//! network: a program that has raft-rs deletes it, and names raft's own.
//!
//! `raft_storage DIR`: opens the log in a directory, appends an entry of the next term with a hard state, keeps the last
//! three entries, and prints what there is.

use dafirondo::{Command, Config, Engine, LogBatch, Message, MessageExt};

use raft::{ConfState, Entry, Error, GetEntriesContext, HardState, RaftState, Snapshot, Storage, StorageError};

/// The part of raft-rs 0.7 that a storage needs.
pub mod raft {
    #[derive(Clone, Debug, Default, PartialEq)]
    pub struct HardState {
        pub term: u64,
        pub vote: u64,
        pub commit: u64,
    }

    #[derive(Clone, Debug, Default, PartialEq)]
    pub struct ConfState {
        pub voters: Vec<u64>,
    }

    #[derive(Clone, Debug, Default, PartialEq)]
    pub struct RaftState {
        pub hard_state: HardState,
        pub conf_state: ConfState,
    }

    #[derive(Clone, Debug, Default, PartialEq)]
    pub struct Entry {
        pub term: u64,
        pub index: u64,
        pub data: Vec<u8>,
    }

    /// A snapshot's metadata; a store adds its data.
    #[derive(Clone, Debug, Default, PartialEq)]
    pub struct Snapshot {
        pub index: u64,
        pub term: u64,
        pub conf_state: ConfState,
    }

    #[derive(Debug)]
    pub enum StorageError {
        Compacted,
        Unavailable,
        SnapshotOutOfDate,
        SnapshotTemporarilyUnavailable,
        Other(Box<dyn std::error::Error + Send + Sync>),
    }

    #[derive(Debug)]
    pub enum Error {
        Store(StorageError),
    }

    pub type Result<T> = std::result::Result<T, Error>;

    pub struct GetEntriesContext;

    pub trait Storage {
        fn initial_state(&self) -> Result<RaftState>;
        fn entries(
            &self,
            low: u64,
            high: u64,
            max_size: impl Into<Option<u64>>,
            context: GetEntriesContext,
        ) -> Result<Vec<Entry>>;
        fn term(&self, idx: u64) -> Result<u64>;
        fn first_index(&self) -> Result<u64>;
        fn last_index(&self) -> Result<u64>;
        fn snapshot(&self, request_index: u64, to: u64) -> Result<Snapshot>;
    }
}

/// The key of the hard state.
const HARD_STATE: &[u8] = b"hard state";

/// The key of the base: the snapshot's last index and term, and its voters. A log that is compacted past its last entry
/// has no first and no last index, so they are kept here.
const BASE: &[u8] = b"base";

impl From<dafirondo::Error> for Error {
    fn from(error: dafirondo::Error) -> Error {
        Error::Store(match error {
            dafirondo::Error::EntryCompacted => StorageError::Compacted,
            dafirondo::Error::EntryNotFound => StorageError::Unavailable,
            error => StorageError::Other(error.into()),
        })
    }
}

/// Numbers of 8 bytes, and then any bytes.
fn encode(out: &mut Vec<u8>, numbers: &[u64], rest: &[u8]) {
    numbers.iter().for_each(|number| out.extend_from_slice(&number.to_le_bytes()));
    out.extend_from_slice(rest);
}

/// The next number of 8 bytes.
fn decode(bytes: &mut &[u8]) -> dafirondo::Result<u64> {
    match bytes.split_first_chunk::<8>() {
        Some((number, rest)) => {
            *bytes = rest;
            Ok(u64::from_le_bytes(*number))
        }
        None => Err(dafirondo::Error::Message("too few bytes".into())),
    }
}

impl Message for Entry {
    fn write_to(&self, out: &mut Vec<u8>) {
        encode(out, &[self.term, self.index], &self.data);
    }

    fn parse(mut bytes: &[u8]) -> dafirondo::Result<Entry> {
        let (term, index) = (decode(&mut bytes)?, decode(&mut bytes)?);
        Ok(Entry { term, index, data: bytes.to_vec() })
    }
}

impl Message for HardState {
    fn write_to(&self, out: &mut Vec<u8>) {
        encode(out, &[self.term, self.vote, self.commit], &[]);
    }

    fn parse(mut bytes: &[u8]) -> dafirondo::Result<HardState> {
        let (term, vote, commit) = (decode(&mut bytes)?, decode(&mut bytes)?, decode(&mut bytes)?);
        Ok(HardState { term, vote, commit })
    }
}

impl Message for Snapshot {
    fn write_to(&self, out: &mut Vec<u8>) {
        encode(out, &[self.index, self.term], &[]);
        encode(out, &self.conf_state.voters, &[]);
    }

    fn parse(mut bytes: &[u8]) -> dafirondo::Result<Snapshot> {
        let (index, term) = (decode(&mut bytes)?, decode(&mut bytes)?);
        let mut voters = Vec::new();
        while !bytes.is_empty() {
            voters.push(decode(&mut bytes)?);
        }
        Ok(Snapshot { index, term, conf_state: ConfState { voters } })
    }
}

/// The type of the log's entries.
struct Entries;

impl MessageExt for Entries {
    type Entry = Entry;

    fn index(entry: &Entry) -> u64 {
        entry.index
    }
}

/// One Raft group's storage. Several groups share an engine, and so do several threads.
pub struct LogStorage<'a> {
    engine: &'a Engine,
    group: u64,
}

impl<'a> LogStorage<'a> {
    pub fn new(engine: &'a Engine, group: u64) -> LogStorage<'a> {
        LogStorage { engine, group }
    }

    /// Makes entries and a hard state durable together, as a `Ready` has them. Entries that begin at or below the last
    /// index replace all from there on.
    pub fn append(&self, entries: &[Entry], hard_state: Option<&HardState>) -> raft::Result<()> {
        let mut batch = LogBatch::default();
        batch.add_entries::<Entries>(self.group, entries)?;
        if let Some(state) = hard_state {
            batch.put_message(self.group, HARD_STATE.to_vec(), state)?;
        }
        self.engine.write(&mut batch, true)?;
        Ok(())
    }

    /// Drops the entries up to an index that was applied. Its term is kept, as the base.
    pub fn compact(&self, index: u64) -> raft::Result<()> {
        let mut base = self.base()?;
        if index <= base.index {
            return Ok(());
        }
        base.term = self.term(index)?;
        base.index = index;
        let mut batch = LogBatch::default();
        batch.put_message(self.group, BASE.to_vec(), &base)?;
        batch.add_command(self.group, Command::Compact { index: index + 1 });
        self.engine.write(&mut batch, true)?;
        Ok(())
    }

    /// Replaces the whole log by a snapshot that a leader sent.
    pub fn apply_snapshot(&self, snapshot: &Snapshot, hard_state: &HardState) -> raft::Result<()> {
        if snapshot.index < self.base()?.index {
            return Err(Error::Store(StorageError::SnapshotOutOfDate));
        }
        let mut batch = LogBatch::default();
        batch.add_command(self.group, Command::Clean);
        batch.put_message(self.group, BASE.to_vec(), snapshot)?;
        batch.put_message(self.group, HARD_STATE.to_vec(), hard_state)?;
        self.engine.write(&mut batch, true)?;
        Ok(())
    }

    /// The snapshot after which the entries come.
    fn base(&self) -> raft::Result<Snapshot> {
        Ok(self.engine.get_message(self.group, BASE)?.unwrap_or_default())
    }
}

impl Storage for LogStorage<'_> {
    fn initial_state(&self) -> raft::Result<RaftState> {
        let hard_state = self.engine.get_message(self.group, HARD_STATE)?.unwrap_or_default();
        Ok(RaftState { hard_state, conf_state: self.base()?.conf_state })
    }

    fn entries(
        &self,
        low: u64,
        high: u64,
        max_size: impl Into<Option<u64>>,
        _context: GetEntriesContext,
    ) -> raft::Result<Vec<Entry>> {
        if low < self.first_index()? {
            return Err(Error::Store(StorageError::Compacted));
        }
        let max_size = max_size.into().map(|size| usize::try_from(size).unwrap_or(usize::MAX));
        let mut entries = Vec::new();
        self.engine.fetch_entries_to::<Entries>(self.group, low, high, max_size, &mut entries)?;
        Ok(entries)
    }

    fn term(&self, idx: u64) -> raft::Result<u64> {
        let base = self.base()?;
        if idx == base.index {
            return Ok(base.term);
        }
        match self.engine.get_entry::<Entries>(self.group, idx)? {
            Some(entry) => Ok(entry.term),
            None if idx < base.index => Err(Error::Store(StorageError::Compacted)),
            None => Err(Error::Store(StorageError::Unavailable)),
        }
    }

    fn first_index(&self) -> raft::Result<u64> {
        Ok(self.base()?.index + 1)
    }

    fn last_index(&self) -> raft::Result<u64> {
        match self.engine.last_index(self.group)? {
            Some(last) => Ok(last),
            None => Ok(self.base()?.index),
        }
    }

    fn snapshot(&self, request_index: u64, _to: u64) -> raft::Result<Snapshot> {
        let base = self.base()?;
        if base.index < request_index {
            return Err(Error::Store(StorageError::SnapshotTemporarilyUnavailable));
        }
        Ok(base)
    }
}

fn play(storage: &LogStorage) -> raft::Result<()> {
    let RaftState { hard_state, .. } = storage.initial_state()?;
    let index = storage.last_index()? + 1;
    let term = hard_state.term + 1;
    let entry = Entry { term, index, data: format!("set x {index}").into_bytes() };
    storage.append(&[entry], Some(&HardState { term, vote: 1, commit: index }))?;
    storage.compact(index.saturating_sub(3))?;
    let state = storage.initial_state()?.hard_state;
    println!("term {}, vote {}, commit {}", state.term, state.vote, state.commit);
    for entry in storage.entries(storage.first_index()?, index + 1, None, GetEntriesContext)? {
        println!("{} of term {}: {}", entry.index, entry.term, String::from_utf8_lossy(&entry.data));
    }
    Ok(())
}

fn main() -> Result<(), Box<dyn std::error::Error>> {
    let dir = std::env::args().nth(1).ok_or("usage: raft_storage DIR")?;
    let engine = Engine::open(Config { dir, ..Config::default() })?;
    play(&LogStorage::new(&engine, 7)).map_err(|error| format!("{error:?}"))?;
    engine.close()?;
    Ok(())
}

#[cfg(test)]
mod tests {
    use super::*;

    fn open(name: &str) -> Engine {
        let dir = std::env::temp_dir().join(format!("raft-storage-{name}-{}", std::process::id()));
        Engine::open(Config { dir: dir.to_str().unwrap().into(), log_descriptor: None, ..Config::default() }).unwrap()
    }

    fn delete(engine: Engine) {
        let dir = engine.path().to_owned();
        engine.close().unwrap();
        std::fs::remove_dir_all(dir).unwrap();
    }

    fn entry(index: u64, term: u64) -> Entry {
        Entry { term, index, data: vec![7; 50] }
    }

    fn all(storage: &LogStorage) -> Vec<Entry> {
        let (first, last) = (storage.first_index().unwrap(), storage.last_index().unwrap());
        storage.entries(first, last + 1, None, GetEntriesContext).unwrap()
    }

    #[test]
    fn a_batch_is_there_after_an_open_and_a_compaction() {
        let engine = open("batch");
        let storage = LogStorage::new(&engine, 7);
        assert_eq!((storage.first_index().unwrap(), storage.last_index().unwrap()), (1, 0));
        let state = HardState { term: 2, vote: 3, commit: 4 };
        storage.append(&[entry(1, 1), entry(2, 1), entry(3, 2), entry(4, 2)], Some(&state)).unwrap();
        engine.close().unwrap();

        let engine = open("batch");
        let storage = LogStorage::new(&engine, 7);
        assert_eq!(storage.initial_state().unwrap().hard_state, state);
        assert_eq!(all(&storage), [entry(1, 1), entry(2, 1), entry(3, 2), entry(4, 2)]);
        storage.compact(2).unwrap();
        assert_eq!((storage.first_index().unwrap(), storage.last_index().unwrap()), (3, 4));
        assert_eq!((storage.term(2).unwrap(), storage.term(3).unwrap()), (1, 2));
        assert!(matches!(storage.term(1), Err(Error::Store(StorageError::Compacted))));
        assert!(matches!(storage.term(5), Err(Error::Store(StorageError::Unavailable))));
        let low = storage.entries(2, 4, None, GetEntriesContext);
        assert!(matches!(low, Err(Error::Store(StorageError::Compacted))));
        storage.compact(4).unwrap();
        engine.close().unwrap();

        let engine = open("batch");
        let storage = LogStorage::new(&engine, 7);
        assert_eq!((storage.first_index().unwrap(), storage.last_index().unwrap()), (5, 4));
        assert_eq!(storage.term(4).unwrap(), 2);
        storage.append(&[entry(5, 2)], None).unwrap();
        assert_eq!(all(&storage), [entry(5, 2)]);
        delete(engine);
    }

    #[test]
    fn a_leader_replaces_the_end() {
        let engine = open("conflict");
        let storage = LogStorage::new(&engine, 7);
        storage.append(&[entry(1, 1), entry(2, 1), entry(3, 1)], None).unwrap();
        storage.append(&[entry(2, 2)], None).unwrap();
        assert_eq!(all(&storage), [entry(1, 1), entry(2, 2)]);
        assert_eq!(storage.entries(1, 3, Some(10), GetEntriesContext).unwrap(), [entry(1, 1)]);
        delete(engine);
    }

    #[test]
    fn a_snapshot_replaces_the_log() {
        let engine = open("snapshot");
        let storage = LogStorage::new(&engine, 7);
        storage.append(&[entry(1, 1), entry(2, 1)], None).unwrap();
        let snapshot = Snapshot { index: 9, term: 4, conf_state: ConfState { voters: vec![1, 2, 3] } };
        let state = HardState { term: 4, vote: 0, commit: 9 };
        storage.apply_snapshot(&snapshot, &state).unwrap();
        assert_eq!((storage.first_index().unwrap(), storage.last_index().unwrap()), (10, 9));
        let there = storage.initial_state().unwrap();
        assert_eq!((there.hard_state, there.conf_state), (state, snapshot.conf_state.clone()));
        assert_eq!(storage.snapshot(9, 2).unwrap(), snapshot);
        let later = storage.snapshot(10, 2);
        assert!(matches!(later, Err(Error::Store(StorageError::SnapshotTemporarilyUnavailable))));
        delete(engine);
    }
}
