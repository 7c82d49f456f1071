//! The public calls of raft-engine 0.4.2 that this crate has, each with the types that its documentation gives. A call
//! whose result or parameters differ is in a function of its own, and in the table of docs/RUST_AND_C.md.

use std::path::Path;

use dafirondo::{Command, Config, CopyDetails, Engine, LogBatch, Message, MessageExt, ReadableSize, RecoveryMode, Result};

type Key<'a> = Option<&'a [u8]>;
type OnBytes = fn(&[u8], &[u8]) -> bool;
type OnMessage = fn(&[u8], Text) -> bool;

/// An entry and a value, as a program of raft-engine has them.
#[derive(Clone, Debug, Default, PartialEq)]
struct Text(String);

impl Message for Text {
    fn write_to(&self, out: &mut Vec<u8>) {
        out.extend_from_slice(self.0.as_bytes());
    }

    fn parse(bytes: &[u8]) -> Result<Text> {
        Ok(Text(String::from_utf8_lossy(bytes).into_owned()))
    }
}

#[derive(Clone)]
struct Texts;

impl MessageExt for Texts {
    type Entry = Text;

    fn index(e: &Self::Entry) -> u64 {
        e.0.len() as u64
    }
}

#[test]
fn calls_of_an_engine() {
    let _: fn(Config) -> Result<Engine> = Engine::open;
    let _: fn(&Engine, &mut LogBatch, bool) -> Result<usize> = Engine::write;
    let _: fn(&Engine) -> Result<()> = Engine::sync;
    let _: fn(&Engine, u64, &[u8]) -> Result<Option<Text>> = Engine::get_message::<Text>;
    let _: fn(&Engine, u64, Key, Key, bool, OnMessage) -> Result<()> = Engine::scan_messages::<Text, OnMessage>;
    let _: fn(&Engine, u64, Key, Key, bool, OnBytes) -> Result<()> = Engine::scan_raw_messages::<OnBytes>;
    let _: fn(&Engine, u64, u64) -> Result<Option<Text>> = Engine::get_entry::<Texts>;
    let _: fn(&Engine, u64, u64, u64, Option<usize>, &mut Vec<Text>) -> Result<usize> =
        Engine::fetch_entries_to::<Texts>;
    let _: fn(&Engine) -> Result<Vec<u64>> = Engine::purge_expired_files;
    let _: fn(&Engine) -> &str = Engine::path;
    let _: fn(&Path) -> Result<Vec<(u64, u64)>> = Engine::consistency_check;
}

#[test]
fn calls_of_a_batch() {
    let _: fn() -> LogBatch = LogBatch::default;
    let _: fn(usize) -> LogBatch = LogBatch::with_capacity;
    let _: fn(&mut LogBatch, &mut LogBatch) -> Result<()> = LogBatch::merge;
    let _: fn(&mut LogBatch, u64, &[Text]) -> Result<()> = LogBatch::add_entries::<Texts>;
    let _: fn(&mut LogBatch, u64, Command) = LogBatch::add_command;
    let _: fn(&mut LogBatch, u64, Vec<u8>) = LogBatch::delete;
    let _: fn(&mut LogBatch, u64, Vec<u8>, &Text) -> Result<()> = LogBatch::put_message::<Text>;
    let _: fn(&mut LogBatch, u64, Vec<u8>, Vec<u8>) -> Result<()> = LogBatch::put;
    let _: fn(&LogBatch) -> bool = LogBatch::is_empty;
    let _: fn(&LogBatch) -> usize = LogBatch::approximate_size;
    let _: (Command, Command) = (Command::Clean, Command::Compact { index: 7 });
}

#[test]
fn settings() {
    let config = Config {
        dir: String::new(),
        spill_dir: Some(String::new()),
        recovery_mode: RecoveryMode::AbsoluteConsistency,
        recovery_read_block_size: ReadableSize::kb(16),
        recovery_threads: 4,
        target_file_size: ReadableSize::mb(128),
        purge_threshold: ReadableSize::gb(10),
        purge_rewrite_threshold: Some(ReadableSize(1)),
        purge_rewrite_garbage_ratio: 0.6,
        enable_log_recycle: true,
        prefill_for_recycle: false,
        prefill_limit: None,
        ..Config::default()
    };
    assert_ne!(config, Config::default());
    assert_eq!(ReadableSize::gb(1).as_mb(), 1024);
    let _ = [RecoveryMode::TolerateTailCorruption, RecoveryMode::TolerateAnyCorruption];
}

/// In raft-engine these return what the `Result` has here, and panic where it is an error.
#[test]
fn calls_with_a_result() {
    let _: fn(&Engine, u64, &[u8]) -> Result<Option<Vec<u8>>> = Engine::get;
    let _: fn(&Engine, u64) -> Result<Option<u64>> = Engine::first_index;
    let _: fn(&Engine, u64) -> Result<Option<u64>> = Engine::last_index;
    let _: fn(&Engine, u64, u64) -> Result<u64> = Engine::compact_to;
    let _: fn(&Engine) -> Result<Vec<u64>> = Engine::raft_groups;
    let _: fn(&Engine) -> Result<bool> = Engine::is_empty;
}

/// In raft-engine a fork also takes a file system, and its error is a text. The other purges are calls of its purge manager.
#[test]
fn calls_with_other_parameters() {
    let _: fn(&Config, &'static str) -> Result<CopyDetails> = Engine::fork::<&'static str>;
    let _: fn(&Engine, Option<u64>, Option<u64>) -> Result<()> = Engine::must_rewrite_append_queue;
    let _: fn(&Engine) -> Result<()> = Engine::must_rewrite_rewrite_queue;
    let _: fn(&Engine) -> Result<()> = Engine::must_purge_all_stale;
}
