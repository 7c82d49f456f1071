//! What the plain Rust twins of batches and of reading share: the types of a record, and how it is read, with the same
//! checks and refusals as in the crates.
#![allow(dead_code)] // a twin reads some of the fields

use crate::frame::{crc32, decode_var_u64, CodecError};

pub const HEADER: usize = 16;
pub const CHECKSUM: usize = 4;
pub const TYPE_ENTRIES: u8 = 1;
pub const TYPE_COMMAND: u8 = 2;
pub const TYPE_KEY_VALUE: u8 = 3;
pub const COMMAND_CLEAN: u8 = 1;
pub const COMMAND_COMPACT: u8 = 2;

/// Why a call is refused.
#[derive(Debug)]
pub enum Error {
    InvalidArgument(String),
    Corruption(String),
    Io(std::io::ErrorKind),
    Codec(CodecError),
    Message(String),
    TryAgain(String),
    EntryCompacted,
    EntryNotFound,
    Full,
    Other(Box<dyn std::error::Error + Send + Sync>),
}

pub type Result<T> = std::result::Result<T, Error>;

impl From<CodecError> for Error {
    fn from(error: CodecError) -> Self {
        Error::Codec(error)
    }
}

pub fn take_front<const N: usize>(source: &mut &[u8]) -> Result<[u8; N]> {
    let Some((front, rest)) = source.split_first_chunk::<N>() else {
        return Err(Error::Codec(CodecError::UnexpectedEof));
    };
    *source = rest;
    Ok(*front)
}

pub fn take_u64(source: &mut &[u8]) -> Result<u64> {
    Ok(u64::from_be_bytes(take_front(source)?))
}

fn take_byte(source: &mut &[u8]) -> Result<u8> {
    let [byte] = take_front(source)?;
    Ok(byte)
}

#[derive(Clone, Copy)]
pub enum LogQueue {
    Append,
    Rewrite,
}

#[derive(Clone, Copy)]
pub struct FileId {
    pub queue: LogQueue,
    pub seq: u64,
}

#[derive(Clone, Copy)]
pub struct FileBlockHandle {
    pub id: FileId,
    pub offset: u64,
    pub len: usize,
}

#[derive(Clone, Copy)]
pub enum CompressionType {
    None,
}

#[derive(Clone, Copy)]
pub struct EntryIndex {
    pub index: u64,
    pub entries: Option<FileBlockHandle>,
    pub compression_type: CompressionType,
    pub entry_offset: u32,
    pub entry_len: u32,
}

pub enum Command {
    Clean,
    Compact { index: u64 },
}

#[derive(Clone, Copy)]
pub enum OpType {
    Put = 1,
    Del = 2,
}

pub struct KeyValue {
    pub op_type: OpType,
    pub key: Vec<u8>,
    pub value: Option<Vec<u8>>,
    pub file_id: Option<FileId>,
}

pub enum Content {
    Entries(Vec<EntryIndex>),
    Command(Command),
    KeyValue(KeyValue),
}

pub struct Item {
    pub group: u64,
    pub content: Content,
}

pub fn read_header(source: &mut &[u8]) -> Result<(usize, CompressionType, usize)> {
    let len = source.len();
    if len < HEADER {
        return Err(Error::Corruption(format!("Log batch header too short: {len}")));
    }
    let word = take_u64(source)?;
    let offset = take_u64(source)?;
    let kind = word % 256;
    if kind != 0 {
        return Err(Error::Corruption(format!("Unsupported compression type: {kind}")));
    }
    if offset < HEADER as u64 {
        return Err(Error::Corruption(format!("Log batch footer inside the header: {offset}")));
    }
    if offset > word / 256 {
        return Err(Error::Corruption(format!("Log batch footer past the end: {offset}")));
    }
    Ok((offset as usize, CompressionType::None, (word / 256) as usize))
}

pub fn read_block(block: &[u8], compression: CompressionType) -> Result<&[u8]> {
    let CompressionType::None = compression;
    let len = block.len();
    if len == 0 {
        return Ok(block);
    }
    if len < CHECKSUM {
        return Err(Error::Corruption(format!("Entry block too short: {len}")));
    }
    let (entries, mut checksum) = block.split_at(len - CHECKSUM);
    if u32::from_le_bytes(take_front(&mut checksum)?) != crc32(entries) {
        return Err(Error::Corruption("Entry block checksum mismatch".to_string()));
    }
    Ok(entries)
}

fn read_bytes(source: &mut &[u8]) -> Result<Vec<u8>> {
    let len = decode_var_u64(source)?;
    if (source.len() as u64) < len {
        return Err(Error::Codec(CodecError::UnexpectedEof));
    }
    let (front, back) = source.split_at(len as usize);
    *source = back;
    Ok(front.to_vec())
}

/// Reads entries, which lie in the block at this place from this offset on, and answers where the next one goes.
fn read_entries(source: &mut &[u8], block: FileBlockHandle, mut offset: u64) -> Result<(Vec<EntryIndex>, u64)> {
    let count = decode_var_u64(source)?;
    if count == 0 {
        return Ok((Vec::new(), offset));
    }
    let first = decode_var_u64(source)?;
    if first.checked_add(count).is_none() {
        return Err(Error::Corruption("Entry index past the limit".to_string()));
    }
    let mut entries = Vec::with_capacity((source.len() as u64).min(count) as usize);
    for i in 0..count {
        let len = decode_var_u64(source)?;
        let Ok(entry_len) = u32::try_from(len) else {
            return Err(Error::Corruption("Entry length past the limit".to_string()));
        };
        entries.push(EntryIndex {
            index: first + i,
            entries: Some(block),
            compression_type: CompressionType::None,
            entry_offset: offset as u32,
            entry_len,
        });
        offset = offset.saturating_add(len);
    }
    Ok((entries, offset))
}

fn read_command(source: &mut &[u8]) -> Result<Command> {
    match take_byte(source)? {
        COMMAND_CLEAN => Ok(Command::Clean),
        COMMAND_COMPACT => Ok(Command::Compact { index: decode_var_u64(source)? }),
        kind => Err(Error::Corruption(format!("Unrecognized command type: {kind}"))),
    }
}

fn read_key_value(source: &mut &[u8], file: FileId) -> Result<KeyValue> {
    let op_type = match take_byte(source)? {
        1 => OpType::Put,
        2 => OpType::Del,
        op => return Err(Error::Corruption(format!("Unrecognized operation type: {op}"))),
    };
    let key = read_bytes(source)?;
    let value = match op_type {
        OpType::Put => Some(read_bytes(source)?),
        OpType::Del => None,
    };
    Ok(KeyValue { op_type, key, value, file_id: Some(file) })
}

/// Reads an item with its places, and answers where the next entry goes.
fn read_item(source: &mut &[u8], block: FileBlockHandle, offset: u64) -> Result<(Item, u64)> {
    let group = decode_var_u64(source)?;
    let (content, next) = match take_byte(source)? {
        TYPE_ENTRIES => {
            let (entries, next) = read_entries(source, block, offset)?;
            (Content::Entries(entries), next)
        }
        TYPE_COMMAND => (Content::Command(read_command(source)?), offset),
        TYPE_KEY_VALUE => (Content::KeyValue(read_key_value(source, block.id)?), offset),
        kind => return Err(Error::Corruption(format!("Unrecognized item type: {kind}"))),
    };
    Ok((Item { group, content }, next))
}

/// Reads a footer whose entries lie in the block at this place; each item gets its places as it is read.
pub fn read_footer(bytes: &[u8], block: FileBlockHandle, signature: Option<u32>) -> Result<Vec<Item>> {
    let len = bytes.len();
    if len <= CHECKSUM {
        return Err(Error::Corruption(format!("Log batch footer too short: {len}")));
    }
    let (mut body, mut checksum) = bytes.split_at(len - CHECKSUM);
    if u32::from_le_bytes(take_front(&mut checksum)?) != crc32(body) ^ signature.unwrap_or(0) {
        return Err(Error::Corruption("Log batch footer checksum mismatch".to_string()));
    }
    let source = &mut body;
    let count = decode_var_u64(source)?;
    let mut items = Vec::with_capacity((source.len() as u64).min(count) as usize);
    let mut len = 0;
    for _ in 0..count {
        let (item, next) = read_item(source, block, len)?;
        items.push(item);
        len = next;
    }
    let left = source.len();
    if left != 0 {
        return Err(Error::Corruption(format!("Bytes after the last log item: {left}")));
    }
    let filled = if block.len == 0 { len == 0 } else { block.len as u64 == len + CHECKSUM as u64 };
    if len > u32::MAX as u64 || !filled {
        return Err(Error::Corruption("Entry lengths do not add up to the entry block".to_string()));
    }
    Ok(items)
}
