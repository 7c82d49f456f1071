//! A multi-Raft log store: entries, keys and values of many Raft groups in the files of one directory.
//!
//! The names are those of `raft-engine` 0.4.2; `docs/RUST_AND_C.md` lists what differs. The log itself is the static
//! library behind `include/dafirondo.h`.
//!
//! ```no_run
//! use dafirondo::{Config, Engine, LogBatch};
//!
//! # fn main() -> dafirondo::Result<()> {
//! let engine = Engine::open(Config { dir: "log".into(), ..Config::default() })?;
//! let mut batch = LogBatch::default();
//! batch.add_raw_entries(7, 1, &[b"first".to_vec(), b"second".to_vec()])?;
//! batch.put(7, b"vote".to_vec(), b"3".to_vec())?;
//! engine.write(&mut batch, true)?;
//! assert_eq!(engine.last_index(7)?, Some(2));
//! # Ok(())
//! # }
//! ```
#![deny(missing_docs)]

mod batch;
mod config;
mod engine;
mod error;
mod group_commit;
mod message;
mod raw;

pub use batch::{Command, LogBatch};
pub use config::{Config, ReadableSize, RecoveryMode};
pub use engine::{CopyDetails, Engine};
pub use error::{Error, Result};
pub use message::{Message, MessageExt, RawEntries};
