//! What a program keeps in the log: entries, and values of keys.

use crate::error::Result;

/// A value that is kept as bytes. `parse` reads what `write_to` writes as the same value.
pub trait Message: Sized {
    /// Appends the bytes of the value.
    fn write_to(&self, out: &mut Vec<u8>);

    /// The value of these bytes. Fails with `Error::Message` if they are no value's.
    fn parse(bytes: &[u8]) -> Result<Self>;
}

/// The type of a log's entries, and the index of each.
pub trait MessageExt {
    /// The type of an entry.
    type Entry: Message;

    /// The index of an entry.
    fn index(entry: &Self::Entry) -> u64;
}

/// Bytes are written unchanged, and any bytes are read.
impl Message for Vec<u8> {
    fn write_to(&self, out: &mut Vec<u8>) {
        out.extend_from_slice(self);
    }

    fn parse(bytes: &[u8]) -> Result<Vec<u8>> {
        Ok(bytes.to_vec())
    }
}

/// Entries that are any bytes, to read them. Bytes don't contain their index, so they are added by
/// `LogBatch::add_raw_entries`.
pub struct RawEntries;

impl MessageExt for RawEntries {
    type Entry = Vec<u8>;

    fn index(_entry: &Vec<u8>) -> u64 {
        0
    }
}
