//! What the plain Rust twins of tables and of the engine share: where an entry lies.

/// An entry's file, its block there, and its bytes in the block.
#[derive(Clone, Copy)]
pub struct Place {
    pub file: u64,
    pub offset: u64,
    pub len: usize,
    pub entry_offset: u32,
    pub entry_len: u32,
}
