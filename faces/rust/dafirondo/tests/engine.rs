//! The log through the crate, in directories below the system's folder for temporary files.

use std::path::PathBuf;
use std::sync::atomic::{AtomicU64, Ordering};

use dafirondo::{
    Command, Config, Engine, Error, LogBatch, Message, MessageExt, RawEntries, ReadableSize, Result,
};

/// A directory that is deleted at the end of a test.
struct Directory(PathBuf);

impl Directory {
    fn new() -> Directory {
        static NEXT: AtomicU64 = AtomicU64::new(0);
        let number = NEXT.fetch_add(1, Ordering::Relaxed);
        let path = std::env::temp_dir().join(format!("dafirondo-{}-{number}", std::process::id()));
        Directory(path)
    }

    fn config(&self) -> Config {
        Config {
            dir: self.0.to_str().unwrap().to_owned(),
            target_file_size: ReadableSize::kb(4),
            purge_threshold: ReadableSize::kb(16),
            log_descriptor: None,
            ..Config::default()
        }
    }

    fn open(&self) -> Engine {
        Engine::open(self.config()).unwrap()
    }

    /// How many of its files have names with this ending.
    fn files(&self, ending: &str) -> usize {
        let names = std::fs::read_dir(&self.0).unwrap().map(|entry| entry.unwrap().file_name());
        names.filter(|name| name.to_str().unwrap().ends_with(ending)).count()
    }
}

impl Drop for Directory {
    fn drop(&mut self) {
        let _ = std::fs::remove_dir_all(&self.0);
    }
}

/// An entry with its index in front.
#[derive(Clone, Debug, PartialEq)]
struct Numbered(u64, Vec<u8>);

impl Message for Numbered {
    fn write_to(&self, out: &mut Vec<u8>) {
        out.extend_from_slice(&self.0.to_le_bytes());
        out.extend_from_slice(&self.1);
    }

    fn parse(bytes: &[u8]) -> Result<Numbered> {
        match bytes.split_first_chunk::<8>() {
            Some((index, data)) => Ok(Numbered(u64::from_le_bytes(*index), data.to_vec())),
            None => Err(Error::Message("no index".into())),
        }
    }
}

struct Entries;

impl MessageExt for Entries {
    type Entry = Numbered;

    fn index(entry: &Numbered) -> u64 {
        entry.0
    }
}

fn entries(indexes: std::ops::Range<u64>) -> Vec<Numbered> {
    indexes.map(|index| Numbered(index, vec![index as u8; 100])).collect()
}

fn append(engine: &Engine, group: u64, indexes: std::ops::Range<u64>) -> Result<usize> {
    let mut batch = LogBatch::default();
    batch.add_entries::<Entries>(group, &entries(indexes))?;
    engine.write(&mut batch, true)
}

fn fetched(engine: &Engine, group: u64, begin: u64, end: u64, max: Option<usize>) -> Result<Vec<Numbered>> {
    let mut found = Vec::new();
    let count = engine.fetch_entries_to::<Entries>(group, begin, end, max, &mut found)?;
    assert_eq!(count, found.len());
    Ok(found)
}

#[test]
fn entries_are_kept() {
    let directory = Directory::new();
    let engine = directory.open();
    assert!(engine.is_empty().unwrap());
    append(&engine, 7, 1..11).unwrap();
    append(&engine, 9, 5..6).unwrap();
    check_entries(&engine);
    engine.close().unwrap();
    check_entries(&directory.open());
}

fn check_entries(engine: &Engine) {
    assert_eq!(engine.first_index(7).unwrap(), Some(1));
    assert_eq!(engine.last_index(7).unwrap(), Some(10));
    assert_eq!(engine.last_index(8).unwrap(), None);
    assert_eq!(engine.raft_groups().unwrap(), [7, 9]);
    assert_eq!(fetched(engine, 7, 1, 11, None).unwrap(), entries(1..11));
    assert_eq!(fetched(engine, 7, 3, 11, Some(250)).unwrap(), entries(3..5));
    assert_eq!(fetched(engine, 7, 3, 11, Some(0)).unwrap(), entries(3..4));
    assert_eq!(fetched(engine, 7, 1, 12, None), Err(Error::EntryNotFound));
    assert_eq!(engine.get_entry::<Entries>(9, 5).unwrap(), Some(entries(5..6).remove(0)));
    assert_eq!(engine.get_entry::<RawEntries>(9, 5).unwrap().unwrap().len(), 108);
    assert_eq!(engine.get_entry::<Entries>(9, 6).unwrap(), None);
}

#[test]
fn later_runs_replace() {
    let directory = Directory::new();
    let engine = directory.open();
    append(&engine, 7, 1..11).unwrap();
    append(&engine, 7, 4..6).unwrap();
    assert_eq!(engine.last_index(7).unwrap(), Some(5));
    assert_eq!(append(&engine, 7, 8..9), Err(Error::Hole));
    assert_eq!(engine.last_index(7).unwrap(), Some(5));
}

#[test]
fn a_batch_that_fails_keeps_its_items() {
    let directory = Directory::new();
    let engine = directory.open();
    append(&engine, 7, 1..3).unwrap();
    let mut batch = LogBatch::default();
    batch.add_entries::<Entries>(7, &entries(9..10)).unwrap();
    let before = batch.clone();
    assert_eq!(engine.write(&mut batch, true), Err(Error::Hole));
    assert_eq!(batch, before);
    batch.clear();
    assert_eq!(engine.write(&mut batch, true), Ok(0));
}

#[test]
fn keys_are_kept() {
    let directory = Directory::new();
    let engine = directory.open();
    let mut batch = LogBatch::default();
    for key in [b"a", b"b", b"c"] {
        batch.put(7, key.to_vec(), vec![key[0]; 5000]).unwrap();
    }
    batch.put_message(7, b"n".to_vec(), &Numbered(3, vec![])).unwrap();
    batch.delete(7, b"b".to_vec());
    engine.write(&mut batch, false).unwrap();
    engine.sync().unwrap();
    assert_eq!(engine.get(7, b"a").unwrap(), Some(vec![b'a'; 5000]));
    assert_eq!(engine.get(7, b"b").unwrap(), None);
    assert_eq!(engine.get_message::<Numbered>(7, b"n").unwrap(), Some(Numbered(3, vec![])));
    let keys = |start: Option<&[u8]>, end: Option<&[u8]>, reverse| {
        let mut keys = Vec::new();
        engine
            .scan_raw_messages(7, start, end, reverse, |key, _| {
                keys.extend_from_slice(key);
                true
            })
            .unwrap();
        String::from_utf8(keys).unwrap()
    };
    assert_eq!(keys(None, None, false), "acn");
    assert_eq!(keys(None, None, true), "nca");
    assert_eq!(keys(Some(b"b"), Some(b"n"), false), "c");
    let mut first = None;
    engine
        .scan_messages::<Numbered, _>(7, Some(b"d"), None, false, |_, value| {
            first = Some(value);
            false
        })
        .unwrap();
    assert_eq!(first, Some(Numbered(3, vec![])));
}

#[test]
fn compactions_and_purges_free_files() {
    let directory = Directory::new();
    let engine = directory.open();
    for index in 1..400 {
        append(&engine, 7, index..index + 1).unwrap();
    }
    assert_eq!(engine.compact_to(7, 395).unwrap(), 394);
    assert_eq!(fetched(&engine, 7, 1, 400, None), Err(Error::EntryCompacted));
    let before = std::fs::read_dir(&directory.0).unwrap().count();
    engine.purge_expired_files().unwrap();
    engine.purge_expired_files().unwrap();
    engine.close().unwrap();
    let engine = directory.open();
    assert_eq!(engine.first_index(7).unwrap(), Some(395));
    assert_eq!(fetched(&engine, 7, 395, 400, None).unwrap(), entries(395..400));
    let mut batch = LogBatch::default();
    batch.add_command(7, Command::Clean);
    engine.write(&mut batch, true).unwrap();
    assert!(engine.is_empty().unwrap());
    assert!(before > 4, "{before}");
}

#[test]
fn each_purge_keeps_what_is_live() {
    let directory = Directory::new();
    let engine = Engine::open(Config { enable_log_recycle: false, ..directory.config() }).unwrap();
    for index in 1..100 {
        append(&engine, 7, index..index + 1).unwrap();
    }
    engine.compact_to(7, 90).unwrap();
    engine.must_rewrite_append_queue(Some(3), Some(1)).unwrap();
    engine.must_rewrite_append_queue(Some(3), Some(2)).unwrap();
    let rotated = directory.files(".raftlog");
    engine.must_rewrite_append_queue(None, None).unwrap();
    assert!(directory.files(".raftlog") < rotated, "{rotated}");
    assert!(directory.files(".rewrite") > 0);
    engine.must_rewrite_rewrite_queue().unwrap();
    assert_eq!(fetched(&engine, 7, 90, 100, None).unwrap(), entries(90..100));
    let mut batch = LogBatch::default();
    batch.add_command(7, Command::Clean);
    engine.write(&mut batch, true).unwrap();
    engine.must_purge_all_stale().unwrap();
    assert_eq!(directory.files(".raftlog") + directory.files(".rewrite"), 2);
    engine.close().unwrap();
    assert!(directory.open().is_empty().unwrap());
}

#[test]
fn a_fork_is_the_log() {
    let (directory, target) = (Directory::new(), Directory::new());
    let config = Config { enable_log_recycle: false, ..directory.config() };
    let engine = Engine::open(config.clone()).unwrap();
    append(&engine, 7, 1..60).unwrap();
    match Engine::fork(&config, &target.0) {
        Err(Error::Directory(text)) => assert!(text.ends_with("is in use by another log"), "{text}"),
        other => panic!("{other:?}"),
    }
    engine.close().unwrap();
    let copied = Engine::fork(&config, &target.0).unwrap().copied;
    assert_eq!(copied.len(), directory.files(".raftlog") + directory.files(".rewrite"));
    assert!(copied.iter().all(|path| path.exists()), "{copied:?}");
    assert_eq!(fetched(&target.open(), 7, 1, 60, None).unwrap(), entries(1..60));
    assert!(matches!(Engine::fork(&config, &target.0), Err(Error::Io(_))));
    let inside = directory.0.join("inside");
    match Engine::fork(&config, &inside) {
        Err(Error::InvalidArgument(text)) => assert!(text.ends_with("the target is inside the log's own directory"), "{text}"),
        other => panic!("{other:?}"),
    }
    match Engine::fork(&directory.config(), "elsewhere") {
        Err(Error::InvalidArgument(text)) => assert!(text.ends_with("enable_log_recycle should be false"), "{text}"),
        other => panic!("{other:?}"),
    }
    assert!(matches!(Engine::fork(&config, ""), Err(Error::InvalidArgument(_))));
    assert!(matches!(Engine::fork(&Directory::new().config(), "elsewhere"), Err(Error::Directory(_))));
}

#[test]
fn holes_are_found() {
    let directory = Directory::new();
    assert!(matches!(Engine::consistency_check(&directory.0), Err(Error::InvalidArgument(_))));
    let engine = directory.open();
    append(&engine, 7, 1..11).unwrap();
    append(&engine, 9, 5..6).unwrap();
    append(&engine, 8, 1..3).unwrap();
    assert!(matches!(Engine::consistency_check(&directory.0), Err(Error::Directory(_))));
    for (group, first) in [(7, 15), (9, 8)] {
        engine.compact_to(group, first).unwrap();
        append(&engine, group, first..first + 1).unwrap();
    }
    engine.close().unwrap();
    assert_eq!(Engine::consistency_check(&directory.0), Ok(vec![(7, 10), (9, 5)]));
    assert_eq!(directory.open().last_index(7), Ok(Some(15)));
}

#[test]
fn a_directory_is_locked() {
    let directory = Directory::new();
    let engine = directory.open();
    match Engine::open(directory.config()) {
        Err(Error::Directory(text)) => assert!(text.ends_with("is in use by another log"), "{text}"),
        other => panic!("{:?}", other.err()),
    }
    engine.close().unwrap();
    directory.open().close().unwrap();
}

#[test]
fn bad_settings_are_rejected() {
    assert!(matches!(Engine::open(Config::default()), Err(Error::InvalidArgument(_))));
    let directory = Directory::new();
    let config = Config {
        purge_threshold: ReadableSize(1),
        ..directory.config()
    };
    match Engine::open(config) {
        Err(Error::Other(text)) => assert!(text.contains("purge-threshold < target-file-size"), "{text}"),
        other => panic!("{:?}", other.err()),
    }
}

#[test]
fn eight_threads_append() {
    let directory = Directory::new();
    let engine = directory.open();
    std::thread::scope(|scope| {
        for group in 1..9 {
            let engine = &engine;
            scope.spawn(move || {
                for index in 1..51 {
                    append(engine, group, index..index + 1).unwrap();
                    assert_eq!(engine.last_index(group).unwrap(), Some(index));
                }
            });
        }
    });
    engine.close().unwrap();
    let engine = directory.open();
    for group in 1..9 {
        assert_eq!(fetched(&engine, group, 1, 51, None).unwrap(), entries(1..51));
    }
}
