//! What the plain Rust twins of batches and of the engine share: a batch, and how its record is made.

use crate::frame::{append_var_u64, crc32};
use crate::record::{
    Command, CompressionType, Content, EntryIndex, Error, Item, OpType, Result, CHECKSUM, COMMAND_CLEAN, COMMAND_COMPACT, HEADER,
    TYPE_COMMAND, TYPE_ENTRIES, TYPE_KEY_VALUE,
};

impl EntryIndex {
    /// An entry that is in no file yet.
    pub fn new(index: u64, entry_len: u32) -> Self {
        EntryIndex { index, entries: None, compression_type: CompressionType::None, entry_offset: 0, entry_len }
    }
}

#[derive(Clone, Copy, PartialEq)]
pub enum State {
    Filling,
    Populated,
    Signed(Option<u32>),
}

pub struct Batch {
    pub items: Vec<Item>,
    pub buf: Vec<u8>,
    pub entries_len: usize,
    pub checksum: u32,
    pub state: State,
}

const MAX_ENTRIES_LEN: usize = 2_147_483_647;
const MAX_RECORD_LEN: u64 = (1 << 56) - 1;

/// Whether the indexes rise by one, and none is the greatest number.
fn is_run(entries: &[EntryIndex]) -> bool {
    match entries {
        [first, ..] => {
            entries.len() as u64 <= u64::MAX - first.index
                && entries.iter().zip(first.index..).all(|(entry, index)| entry.index == index)
        }
        [] => true,
    }
}

fn append_bytes(out: &mut Vec<u8>, bytes: &[u8]) {
    append_var_u64(out, bytes.len() as u64);
    out.extend_from_slice(bytes);
}

fn append_content(out: &mut Vec<u8>, content: &Content) {
    match content {
        Content::Entries(entries) => {
            out.push(TYPE_ENTRIES);
            append_var_u64(out, entries.len() as u64);
            if let Some(first) = entries.first() {
                append_var_u64(out, first.index);
                for entry in entries {
                    append_var_u64(out, entry.entry_len as u64);
                }
            }
        }
        Content::Command(command) => {
            out.push(TYPE_COMMAND);
            match command {
                Command::Clean => out.push(COMMAND_CLEAN),
                Command::Compact { index } => {
                    out.push(COMMAND_COMPACT);
                    append_var_u64(out, *index);
                }
            }
        }
        Content::KeyValue(key_value) => {
            out.push(TYPE_KEY_VALUE);
            out.push(key_value.op_type as u8);
            append_bytes(out, &key_value.key);
            if let OpType::Put = key_value.op_type {
                append_bytes(out, key_value.value.as_deref().unwrap_or(&[]));
            }
        }
    }
}

impl Batch {
    pub fn new() -> Self {
        Batch { items: Vec::new(), buf: vec![0; HEADER], entries_len: 0, checksum: 0, state: State::Filling }
    }

    pub fn add<E: AsRef<[u8]>>(&mut self, group: u64, mut indexes: Vec<EntryIndex>, entries: &[E]) -> Result<()> {
        let (given, count) = (indexes.len(), entries.len());
        if given != count {
            return Err(Error::InvalidArgument(format!("{given} indexes for {count} entries")));
        }
        if !is_run(&indexes) {
            return Err(Error::InvalidArgument("entry indexes that don't rise by one".to_string()));
        }
        let added: usize = entries.iter().map(|entry| entry.as_ref().len()).sum();
        if added > MAX_ENTRIES_LEN - self.entries_len {
            return Err(Error::Full);
        }
        if entries.is_empty() {
            return Ok(());
        }
        self.buf.reserve(added);
        for entry in entries {
            self.buf.extend_from_slice(entry.as_ref());
        }
        let mut offset = self.entries_len as u32;
        for (index, entry) in indexes.iter_mut().zip(entries) {
            *index = EntryIndex::new(index.index, entry.as_ref().len() as u32);
            index.entry_offset = offset;
            offset += index.entry_len;
        }
        self.items.push(Item { group, content: Content::Entries(indexes) });
        self.entries_len += added;
        Ok(())
    }

    pub fn populate(&mut self) -> Result<usize> {
        if self.items.is_empty() {
            self.state = State::Populated;
            return Ok(0);
        }
        if self.buf.len() > HEADER {
            let checksum = crc32(&self.buf[HEADER..]);
            self.buf.extend_from_slice(&checksum.to_le_bytes());
        }
        let offset = self.buf.len();
        append_var_u64(&mut self.buf, self.items.len() as u64);
        for item in &self.items {
            append_var_u64(&mut self.buf, item.group);
            append_content(&mut self.buf, &item.content);
        }
        let checksum = crc32(&self.buf[offset..]);
        self.buf.extend_from_slice(&checksum.to_le_bytes());
        let len = self.buf.len();
        if len as u64 > MAX_RECORD_LEN {
            return Err(Error::Full);
        }
        self.buf[..8].copy_from_slice(&(256 * len as u64).to_be_bytes());
        self.buf[8..HEADER].copy_from_slice(&(offset as u64).to_be_bytes());
        self.checksum = checksum;
        self.state = State::Populated;
        Ok(len)
    }

    pub fn sign(&mut self, signature: Option<u32>) {
        if !self.items.is_empty() {
            let at = self.buf.len() - CHECKSUM;
            self.buf[at..].copy_from_slice(&(self.checksum ^ signature.unwrap_or(0)).to_le_bytes());
        }
        self.state = State::Signed(signature);
    }

    pub fn drain(&mut self, into: &mut Vec<Item>) {
        into.append(&mut self.items);
        self.buf.truncate(HEADER);
        self.entries_len = 0;
        self.state = State::Filling;
    }
}

