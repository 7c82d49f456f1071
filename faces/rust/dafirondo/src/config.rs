//! The settings of a log.

use std::fmt::Write;

/// A number of bytes.
#[derive(Clone, Copy, Debug, PartialEq, Eq, PartialOrd, Ord)]
pub struct ReadableSize(pub u64);

impl ReadableSize {
    /// So many KiB.
    pub const fn kb(count: u64) -> ReadableSize {
        ReadableSize(count << 10)
    }

    /// So many MiB.
    pub const fn mb(count: u64) -> ReadableSize {
        ReadableSize(count << 20)
    }

    /// So many GiB.
    pub const fn gb(count: u64) -> ReadableSize {
        ReadableSize(count << 30)
    }

    /// How many whole MiB it is.
    pub const fn as_mb(self) -> u64 {
        self.0 >> 20
    }
}

/// What an open does with damaged files.
#[derive(Clone, Copy, Debug, PartialEq, Eq)]
pub enum RecoveryMode {
    /// Fails on any damage.
    AbsoluteConsistency,
    /// Truncates the last file of a queue before its damage, and fails on damage in another file.
    TolerateTailCorruption,
    /// Truncates each file before its damage.
    TolerateAnyCorruption,
}

/// The settings of a log. `docs/SETTINGS.md` explains each.
#[derive(Clone, Debug, PartialEq)]
pub struct Config {
    /// The main directory of log files. It is made if it isn't there; its parent must exist.
    pub dir: String,
    /// How many bytes the files of `dir` may have in all before new files go to `spill_dir`.
    pub dir_limit: Option<ReadableSize>,
    /// A second directory, for new files if the main one has no space.
    pub spill_dir: Option<String>,
    /// The same for `spill_dir`. If both reach their limit, new files go to `dir`.
    pub spill_dir_limit: Option<ReadableSize>,
    /// What an open does with damaged files.
    pub recovery_mode: RecoveryMode,
    /// How many bytes of a file an open reads at a time.
    pub recovery_read_block_size: ReadableSize,
    /// Without effect: an open here reads on the caller's thread.
    pub recovery_threads: usize,
    /// The size at which a file is full.
    pub target_file_size: ReadableSize,
    /// The size of the append queue above which a purge frees files of it. The log's content is held in memory too.
    pub purge_threshold: ReadableSize,
    /// The size of the rewrite queue above which a purge may rewrite it.
    pub purge_rewrite_threshold: Option<ReadableSize>,
    /// The share of garbage above which a purge rewrites the rewrite queue, to the thousandth.
    pub purge_rewrite_garbage_ratio: f64,
    /// Whether files that a purge retires are kept for recycling.
    pub enable_log_recycle: bool,
    /// Whether an open makes files filled with zeros ahead of their use.
    pub prefill_for_recycle: bool,
    /// How many bytes of such files there are at most.
    pub prefill_limit: Option<ReadableSize>,
    /// Where warnings are written as lines: a descriptor that stays open while the log is, or nowhere.
    pub log_descriptor: Option<i32>,
}

impl Default for Config {
    fn default() -> Config {
        Config {
            dir: String::new(),
            dir_limit: None,
            spill_dir: None,
            spill_dir_limit: None,
            recovery_mode: RecoveryMode::TolerateTailCorruption,
            recovery_read_block_size: ReadableSize::kb(16),
            recovery_threads: 4,
            target_file_size: ReadableSize::mb(128),
            purge_threshold: ReadableSize::gb(10),
            purge_rewrite_threshold: None,
            purge_rewrite_garbage_ratio: 0.6,
            enable_log_recycle: true,
            prefill_for_recycle: false,
            prefill_limit: None,
            log_descriptor: Some(2),
        }
    }
}

impl Config {
    /// The settings as a TOML text.
    pub(crate) fn to_toml(&self) -> String {
        let mut out = String::new();
        text(&mut out, "dir", &self.dir);
        size(&mut out, "dir-limit", self.dir_limit);
        if let Some(spill) = &self.spill_dir {
            text(&mut out, "spill-dir", spill);
        }
        size(&mut out, "spill-dir-limit", self.spill_dir_limit);
        let mode = match self.recovery_mode {
            RecoveryMode::AbsoluteConsistency => "absolute-consistency",
            RecoveryMode::TolerateTailCorruption => "tolerate-tail-corruption",
            RecoveryMode::TolerateAnyCorruption => "tolerate-any-corruption",
        };
        text(&mut out, "recovery-mode", mode);
        size(&mut out, "recovery-read-block-size", Some(self.recovery_read_block_size));
        size(&mut out, "target-file-size", Some(self.target_file_size));
        size(&mut out, "purge-threshold", Some(self.purge_threshold));
        size(&mut out, "purge-rewrite-threshold", self.purge_rewrite_threshold);
        let ratio = (self.purge_rewrite_garbage_ratio * 1000.0).clamp(0.0, 1e15) as u64;
        let _ = writeln!(out, "purge-rewrite-garbage-ratio = {ratio}");
        let _ = writeln!(out, "enable-log-recycle = {}", self.enable_log_recycle);
        let _ = writeln!(out, "prefill-for-recycle = {}", self.prefill_for_recycle);
        size(&mut out, "prefill-limit", self.prefill_limit);
        out
    }
}

/// Appends a key with a text as its value.
fn text(out: &mut String, key: &str, value: &str) {
    let _ = write!(out, "{key} = \"");
    for letter in value.chars() {
        match letter {
            '"' => out.push_str("\\\""),
            '\\' => out.push_str("\\\\"),
            letter if letter < ' ' || letter == '\u{7f}' => {
                let _ = write!(out, "\\u{:04X}", letter as u32);
            }
            letter => out.push(letter),
        }
    }
    out.push_str("\"\n");
}

/// Appends a key with a size as its value, as a text, since TOML's numbers end below 2^63. Nothing if there is none.
fn size(out: &mut String, key: &str, value: Option<ReadableSize>) {
    if let Some(ReadableSize(bytes)) = value {
        let _ = writeln!(out, "{key} = \"{bytes}\"");
    }
}

#[cfg(test)]
mod tests {
    use super::{Config, ReadableSize};

    #[test]
    fn a_path_is_quoted() {
        let config = Config {
            dir: "a\"b\\c\nd".into(),
            ..Config::default()
        };
        let toml = config.to_toml();
        assert!(toml.starts_with("dir = \"a\\\"b\\\\c\\u000Ad\"\n"), "{toml}");
        assert!(toml.contains("\npurge-rewrite-garbage-ratio = 600\n"), "{toml}");
        assert!(toml.contains("\ntarget-file-size = \"134217728\"\n"), "{toml}");
        assert!(!toml.contains("spill-dir"), "{toml}");
        assert!(!toml.contains("limit"), "{toml}");
    }

    #[test]
    fn each_directory_has_its_limit() {
        let config = Config {
            dir: "d".into(),
            dir_limit: Some(ReadableSize(1)),
            spill_dir: Some("s".into()),
            spill_dir_limit: Some(ReadableSize(2)),
            ..Config::default()
        };
        let lines = "dir = \"d\"\ndir-limit = \"1\"\nspill-dir = \"s\"\nspill-dir-limit = \"2\"\n";
        assert!(config.to_toml().starts_with(lines), "{}", config.to_toml());
    }
}
