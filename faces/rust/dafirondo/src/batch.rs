//! Batches: what is written together, as one record.

use crate::error::{Error, Result};
use crate::message::{Message, MessageExt};

const ENTRIES: u8 = 1;
const PUT: u8 = 2;
const DELETE: u8 = 3;
const COMPACT: u8 = 4;
const CLEAN: u8 = 5;

/// A statement about a whole group.
#[derive(Clone, Copy, Debug, PartialEq, Eq)]
pub enum Command {
    /// All entries and keys of the group are dropped.
    Clean,
    /// All entries below the index are dropped.
    Compact {
        /// The least index that is kept.
        index: u64,
    },
}

/// What is written together: entries, puts and deletions of keys, and commands. It is kept as `dafirondo_write` takes it.
#[derive(Clone, Debug, Default, PartialEq, Eq)]
pub struct LogBatch {
    pub(crate) bytes: Vec<u8>,
    // The groups of the items, in order; a group isn't repeated while the items are of the same one.
    pub(crate) groups: Vec<u64>,
}

impl LogBatch {
    /// An empty batch with room for so many bytes.
    pub fn with_capacity(capacity: usize) -> LogBatch {
        LogBatch {
            bytes: Vec::with_capacity(capacity),
            groups: Vec::new(),
        }
    }

    /// Whether nothing was added.
    pub fn is_empty(&self) -> bool {
        self.bytes.is_empty()
    }

    /// About how many bytes the record has.
    pub fn approximate_size(&self) -> usize {
        self.bytes.len()
    }

    /// Empties the batch.
    pub fn clear(&mut self) {
        self.bytes.clear();
        self.groups.clear();
    }

    /// Adds all of another batch, which is empty afterwards.
    pub fn merge(&mut self, other: &mut LogBatch) -> Result<()> {
        self.bytes.append(&mut other.bytes);
        self.groups.append(&mut other.groups);
        self.groups.dedup();
        Ok(())
    }

    /// Adds entries of a group. Fails with `InvalidArgument` if their indexes don't rise by one.
    pub fn add_entries<M: MessageExt>(&mut self, region_id: u64, entries: &[M::Entry]) -> Result<()> {
        let Some(first) = entries.first().map(M::index) else {
            return Ok(());
        };
        for (place, entry) in entries.iter().enumerate() {
            if Some(M::index(entry)) != first.checked_add(place as u64) {
                return Err(Error::InvalidArgument("entry indexes that don't rise by one".into()));
            }
        }
        self.add_run(region_id, first, entries)
    }

    /// Adds entries that are any bytes, the first at this index.
    pub fn add_raw_entries(&mut self, region_id: u64, first: u64, entries: &[Vec<u8>]) -> Result<()> {
        if entries.is_empty() {
            return Ok(());
        }
        self.add_run(region_id, first, entries)
    }

    /// Adds a command of a group.
    pub fn add_command(&mut self, region_id: u64, command: Command) {
        match command {
            Command::Clean => self.begin(CLEAN, region_id),
            Command::Compact { index } => {
                self.begin(COMPACT, region_id);
                self.bytes.extend_from_slice(&index.to_le_bytes());
            }
        }
    }

    /// Adds a put of a key. A key that begins with two underscores is rejected.
    pub fn put(&mut self, region_id: u64, key: Vec<u8>, value: Vec<u8>) -> Result<()> {
        check_key(&key)?;
        let (key_len, value_len) = (length(&key)?, length(&value)?);
        self.begin(PUT, region_id);
        self.bytes.extend_from_slice(&key_len);
        self.bytes.extend_from_slice(&key);
        self.bytes.extend_from_slice(&value_len);
        self.bytes.extend_from_slice(&value);
        Ok(())
    }

    /// Adds a put of a key with the bytes of a message.
    pub fn put_message<S: Message>(&mut self, region_id: u64, key: Vec<u8>, message: &S) -> Result<()> {
        let mut value = Vec::new();
        message.write_to(&mut value);
        self.put(region_id, key, value)
    }

    /// Adds a deletion of a key. One that begins with two underscores adds nothing.
    pub fn delete(&mut self, region_id: u64, key: Vec<u8>) {
        if let (Ok(()), Ok(len)) = (check_key(&key), length(&key)) {
            self.begin(DELETE, region_id);
            self.bytes.extend_from_slice(&len);
            self.bytes.extend_from_slice(&key);
        }
    }

    /// Begins an item.
    fn begin(&mut self, kind: u8, region_id: u64) {
        self.bytes.push(kind);
        self.bytes.extend_from_slice(&region_id.to_le_bytes());
        if self.groups.last() != Some(&region_id) {
            self.groups.push(region_id);
        }
    }

    /// Adds a run of entries. If it fails, the batch is as it was.
    fn add_run<M: Message>(&mut self, region_id: u64, first: u64, entries: &[M]) -> Result<()> {
        let Ok(count) = u32::try_from(entries.len()) else {
            return Err(Error::Full);
        };
        let (start, groups) = (self.bytes.len(), self.groups.len());
        self.begin(ENTRIES, region_id);
        self.bytes.extend_from_slice(&first.to_le_bytes());
        self.bytes.extend_from_slice(&count.to_le_bytes());
        for entry in entries {
            let at = self.bytes.len();
            self.bytes.extend_from_slice(&[0; 4]);
            entry.write_to(&mut self.bytes);
            match length(&self.bytes[at + 4..]) {
                Ok(len) => self.bytes[at..at + 4].copy_from_slice(&len),
                Err(error) => {
                    self.bytes.truncate(start);
                    self.groups.truncate(groups);
                    return Err(error);
                }
            }
        }
        Ok(())
    }
}

/// Fails if the key is one of the log's own.
fn check_key(key: &[u8]) -> Result<()> {
    if key.starts_with(b"__") {
        return Err(Error::InvalidArgument("key prefix `__` reserved for internal usage".into()));
    }
    Ok(())
}

/// The length of these bytes, as it is written.
fn length(bytes: &[u8]) -> Result<[u8; 4]> {
    match u32::try_from(bytes.len()) {
        Ok(len) => Ok(len.to_le_bytes()),
        Err(_) => Err(Error::Full),
    }
}

#[cfg(test)]
mod tests {
    use super::{Command, LogBatch};

    #[test]
    fn items_are_laid_out() {
        let mut batch = LogBatch::default();
        batch.add_raw_entries(7, 1, &[vec![65, 66], vec![]]).unwrap();
        batch.put(7, vec![107], vec![118]).unwrap();
        batch.delete(8, vec![107]);
        batch.add_command(9, Command::Compact { index: 3 });
        batch.add_command(9, Command::Clean);
        let wanted: &[&[u8]] = &[
            &[1, 7, 0, 0, 0, 0, 0, 0, 0, 1, 0, 0, 0, 0, 0, 0, 0, 2, 0, 0, 0],
            &[2, 0, 0, 0, 65, 66, 0, 0, 0, 0],
            &[2, 7, 0, 0, 0, 0, 0, 0, 0, 1, 0, 0, 0, 107, 1, 0, 0, 0, 118],
            &[3, 8, 0, 0, 0, 0, 0, 0, 0, 1, 0, 0, 0, 107],
            &[4, 9, 0, 0, 0, 0, 0, 0, 0, 3, 0, 0, 0, 0, 0, 0, 0],
            &[5, 9, 0, 0, 0, 0, 0, 0, 0],
        ];
        assert_eq!(batch.bytes, wanted.concat());
        assert_eq!(batch.groups, [7, 8, 9]);
    }

    #[test]
    fn merged_batches_equal_one() {
        let (mut one, mut first, mut second) = (LogBatch::default(), LogBatch::default(), LogBatch::default());
        for batch in [&mut one, &mut first] {
            batch.put(7, vec![1], vec![2]).unwrap();
        }
        for batch in [&mut one, &mut second] {
            batch.delete(7, vec![1]);
            batch.add_command(8, Command::Clean);
        }
        first.merge(&mut second).unwrap();
        assert_eq!((first, second), (one, LogBatch::default()));
    }

    #[test]
    fn own_keys_of_the_log_are_rejected() {
        let mut batch = LogBatch::default();
        assert!(batch.put(7, b"__a".to_vec(), vec![]).is_err());
        batch.delete(7, b"__a".to_vec());
        assert!(batch.is_empty());
    }
}
