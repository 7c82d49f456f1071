//! The plain Rust twin of the benchmark of numbers and checksums.
#[path = "../common/frame.rs"]
mod frame;

use frame::{append_var_u64, crc32, decode_var_u64, next, report};
use std::time::Instant;

fn main() {
    const BLOCK: usize = 1 << 20;
    const ROUNDS: u64 = 256;
    const NUMBERS: usize = 100_000;
    let mut state = 88172645463325252u64;
    let mut block = Vec::with_capacity(BLOCK);
    for _ in 0..BLOCK {
        state = next(state);
        block.push((state & 0xff) as u8);
    }
    let start = Instant::now();
    let mut check = 0u64;
    for _ in 0..ROUNDS {
        check = check.wrapping_add(crc32(&block) as u64);
        block[0] = block[0].wrapping_add(1);
    }
    report("crc32", BLOCK as u64 * ROUNDS, start, check);

    for (work, mask) in [("var_u64-small", 0x7f), ("var_u64-mixed", u64::MAX)] {
        let mut numbers = Vec::with_capacity(NUMBERS);
        for _ in 0..NUMBERS {
            state = next(state);
            numbers.push((state >> (state & 63)) & mask);
        }
        let mut out = Vec::new();
        let start = Instant::now();
        let mut written = 0;
        for _ in 0..ROUNDS {
            out.clear();
            for number in &numbers {
                append_var_u64(&mut out, *number);
            }
            written += out.len() as u64;
        }
        report(&format!("{work}-encode"), written, start, written);

        let start = Instant::now();
        let mut check = 0u64;
        for _ in 0..ROUNDS {
            let mut source: &[u8] = &out;
            for _ in 0..NUMBERS {
                match decode_var_u64(&mut source) {
                    Ok(number) => check = check.wrapping_add(number),
                    Err(_) => check = 0,
                }
            }
        }
        report(&format!("{work}-decode"), written, start, check);
    }
}
