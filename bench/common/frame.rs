//! What the plain Rust twins of the benchmarks share: the checksum, numbers of variable length, and the report.
use std::time::Instant;

const fn table() -> [[u32; 256]; 16] {
    let mut rows = [[0u32; 256]; 16];
    let mut byte = 0;
    while byte < 256 {
        let mut register = byte as u32;
        let mut row = 0;
        while row < 16 {
            let mut bit = 0;
            while bit < 8 {
                register = if register & 1 == 1 { (register >> 1) ^ 0xEDB88320 } else { register >> 1 };
                bit += 1;
            }
            rows[row][byte] = register;
            row += 1;
        }
        byte += 1;
    }
    rows
}

static ROWS: [[u32; 256]; 16] = table();

/// The CRC-32 of the bytes, sixteen at a time. Those that don't wait for the register come first, as in the crate.
pub fn crc32(bytes: &[u8]) -> u32 {
    let mut register = u32::MAX;
    let (chunks, rest) = bytes.as_chunks::<16>();
    for chunk in chunks {
        let mut next = 0;
        for i in 4..16 {
            next ^= ROWS[15 - i][chunk[i] as usize];
        }
        let first = u32::from_le_bytes([chunk[0], chunk[1], chunk[2], chunk[3]]) ^ register;
        for (i, byte) in first.to_le_bytes().into_iter().enumerate() {
            next ^= ROWS[15 - i][byte as usize];
        }
        register = next;
    }
    for byte in rest {
        register = (register >> 8) ^ ROWS[0][(register as u8 ^ byte) as usize];
    }
    !register
}

pub fn append_var_u64(out: &mut Vec<u8>, mut number: u64) {
    while number >= 0x80 {
        out.push(number as u8 | 0x80);
        number >>= 7;
    }
    out.push(number as u8);
}

/// Why a number could not be read.
#[derive(Clone, Copy, Debug)]
pub enum CodecError {
    UnexpectedEof,
    InvalidData,
}

pub fn decode_var_u64(source: &mut &[u8]) -> Result<u64, CodecError> {
    let mut number = 0;
    for i in 0..10 {
        let Some(&byte) = source.get(i) else {
            return Err(CodecError::UnexpectedEof);
        };
        if i == 9 && byte > 1 {
            return Err(CodecError::InvalidData);
        }
        number |= ((byte & 0x7f) as u64) << (7 * i);
        if byte < 0x80 {
            *source = &source[i + 1..];
            return Ok(number);
        }
    }
    Err(CodecError::InvalidData)
}

pub fn next(state: u64) -> u64 {
    let state = state ^ (state << 13);
    let state = state ^ (state >> 7);
    state ^ (state << 17)
}

/// Prints a work, its MB/s and a sum to compare with the Rattle program's.
pub fn report(work: &str, bytes: u64, start: Instant, check: u64) {
    let nanos = start.elapsed().as_nanos() as u64;
    println!("{work} {} {check}", bytes * 1000 / nanos.max(1));
}
