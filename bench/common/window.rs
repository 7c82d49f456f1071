//! What the plain Rust twins of reading and of the engine share: how a file is read in pieces, record by record.

use crate::record::{
    read_block, read_footer, read_header, take_u64, CompressionType, Error, FileBlockHandle, FileId, Item, LogQueue, Result, HEADER,
};

/// How a log file begins.
pub const MAGIC: &[u8] = b"RAFT-LOG-FILE-HEADER-9986AB3E47F320B394C8E84916EB0ED5";

#[derive(Clone, Copy, PartialEq)]
pub enum Version {
    V1,
    V2,
}

/// An open file: which it is, and its format.
#[derive(Clone, Copy)]
pub struct OpenFile {
    pub id: FileId,
    pub version: Version,
    pub alignment: usize,
}

/// The part of a file that is held, in one buffer that is kept.
pub struct Window {
    pub bytes: Vec<u8>,
    pub start: usize,
    pub block: usize,
}

impl Window {
    pub fn begin(&mut self, offset: usize) {
        self.bytes.clear();
        self.start = offset;
    }

    pub fn peek(&mut self, file: &[u8], offset: usize, size: usize, prefetch: usize) -> &[u8] {
        let end = offset + size;
        let wanted = end + prefetch.min(file.len() - end);
        if self.start > offset || wanted > self.start + self.bytes.len() {
            if self.start <= offset && offset <= self.start + self.bytes.len() {
                self.bytes.drain(..offset - self.start);
                self.start = offset;
            } else {
                self.begin(offset);
            }
            let held = self.bytes.len();
            let at = self.start + held;
            let room = wanted.saturating_sub(at).max(self.block).min(file.len() - at);
            self.bytes.resize(held + room, 0);
            self.bytes[held..].copy_from_slice(&file[at..at + room]);
        }
        &self.bytes[offset - self.start..offset - self.start + size]
    }
}

/// Where the record behind an offset is looked for: behind zero padding up to the next multiple of the alignment.
pub fn find_record(window: &mut Window, file: &[u8], open: &OpenFile, offset: usize) -> usize {
    let left = file.len() - offset;
    let padding = if open.alignment == 0 { 0 } else { (open.alignment - offset % open.alignment) % open.alignment };
    if padding == 0 || left < padding || left < HEADER {
        return offset;
    }
    let mut header = window.peek(file, offset, HEADER, 0);
    if read_header(&mut header).is_ok() {
        return offset;
    }
    let bytes = window.peek(file, offset, padding, 0);
    if bytes.first() == Some(&0) && bytes.last() == Some(&0) {
        return offset + padding;
    }
    offset
}

/// The next batch behind an offset, with the place of its entry block and where it ends; none at the end of the file.
pub fn next_batch(window: &mut Window, file: &[u8], open: &OpenFile, offset: usize) -> Result<Option<(Vec<Item>, FileBlockHandle, usize)>> {
    let at = find_record(window, file, open, offset);
    if at == file.len() {
        return Ok(None);
    }
    let left = file.len() - at;
    if left < HEADER {
        return Err(Error::Corruption(format!("Log batch header too short: {left}")));
    }
    let mut header = window.peek(file, at, HEADER, 0);
    let (footer, _, len) = read_header(&mut header)?;
    if left < len {
        return Err(Error::Corruption(format!("Log batch past the end of the input: {len}")));
    }
    let block = FileBlockHandle { id: open.id, offset: (at + HEADER) as u64, len: footer - HEADER };
    let signature = if open.version == Version::V2 { Some(open.id.seq as u32) } else { None };
    let items = read_footer(window.peek(file, at + footer, len - footer, HEADER), block, signature)?;
    Ok(Some((items, block, at + len)))
}

pub fn check_block(window: &mut Window, file: &[u8], block: FileBlockHandle) -> Result<()> {
    let bytes = window.peek(file, block.offset as usize, block.len, 0);
    read_block(bytes, CompressionType::None)?;
    Ok(())
}

/// Opens a file, and answers where its header ends.
pub fn open(window: &mut Window, file: &[u8], seq: u64) -> Result<(OpenFile, usize)> {
    window.begin(0);
    let len = file.len().min(69);
    window.bytes.resize(len, 0);
    window.bytes.copy_from_slice(&file[..len]);
    let Some(mut rest) = window.bytes.strip_prefix(MAGIC) else {
        return Err(Error::Corruption("log file magic header mismatch".to_string()));
    };
    let (version, alignment) = match take_u64(&mut rest)? {
        1 => (Version::V1, 0),
        2 => (Version::V2, take_u64(&mut rest)?),
        number => return Err(Error::Corruption(format!("unrecognized log file version: {number}"))),
    };
    let end = len - rest.len();
    window.begin(0);
    let id = FileId { queue: LogQueue::Append, seq };
    Ok((OpenFile { id, version, alignment: alignment as usize }, end))
}

