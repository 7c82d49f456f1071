//! Bytes that are no batch are rejected, and change nothing.

use std::ffi::c_void;

#[repr(C)]
struct Log {
    at: *mut c_void,
}

extern "C" {
    fn dafirondo_open(
        settings: *const u8,
        settings_len: usize,
        log_descriptor: i32,
        log: *mut Log,
        text: *mut u8,
        text_len: usize,
        needed: *mut usize,
    ) -> i32;
    fn dafirondo_close(log: Log, text: *mut u8, text_len: usize, needed: *mut usize) -> i32;
    fn dafirondo_write(log: *mut Log, batch: *const u8, len: usize, sync: bool, written: *mut usize) -> i32;
    fn dafirondo_last_index(log: *mut Log, group: u64, index: *mut u64) -> i32;
    fn dafirondo_get(
        log: *mut Log,
        group: u64,
        key: *const u8,
        key_len: usize,
        room: *mut u8,
        room_len: usize,
        needed: *mut usize,
    ) -> i32;
    fn dafirondo_fetch(
        log: *mut Log,
        group: u64,
        begin: u64,
        end: u64,
        max_size: usize,
        room: *mut u8,
        room_len: usize,
        needed: *mut usize,
        count: *mut usize,
    ) -> i32;
    fn dafirondo_last_error(log: *mut Log, text: *mut u8, text_len: usize) -> usize;
}

// Links the library.
use dafirondo as _;

const INVALID: i32 = 1;
const NOT_FOUND: i32 = 7;
const ROOM: i32 = 15;
const NONE: i32 = 16;

fn open(path: &str) -> Log {
    let settings = format!("dir = '{path}'\n");
    let mut log = Log { at: std::ptr::null_mut() };
    let (mut text, mut needed) = ([0; 256], 0);
    let status = unsafe {
        dafirondo_open(settings.as_ptr(), settings.len(), -1, &mut log, text.as_mut_ptr(), text.len(), &mut needed)
    };
    assert_eq!(status, 0, "{}", String::from_utf8_lossy(&text));
    log
}

fn write(log: &mut Log, batch: &[u8]) -> i32 {
    let mut written = 0;
    unsafe { dafirondo_write(log, batch.as_ptr(), batch.len(), false, &mut written) }
}

/// Entries 1 and 2 of group 7, and a key.
fn batch() -> Vec<u8> {
    let mut batch = vec![1, 7, 0, 0, 0, 0, 0, 0, 0, 1, 0, 0, 0, 0, 0, 0, 0, 2, 0, 0, 0];
    batch.extend_from_slice(&[2, 0, 0, 0, 65, 66, 0, 0, 0, 0]);
    batch.extend_from_slice(&[2, 7, 0, 0, 0, 0, 0, 0, 0, 1, 0, 0, 0, 107, 1, 0, 0, 0, 118]);
    batch
}

#[test]
fn wrong_bytes_are_rejected() {
    let path = std::env::temp_dir().join(format!("dafirondo-bytes-{}", std::process::id()));
    let mut log = open(path.to_str().unwrap());
    let whole = batch();
    let (run, _) = whole.split_at(31);
    for end in 1..whole.len() {
        if end != run.len() {
            assert_eq!(write(&mut log, &whole[..end]), INVALID, "{end} bytes");
        }
    }
    for (at, byte) in [(0, 0), (0, 6), (0, 255), (18, 1), (20, 255), (24, 255), (30, 1)] {
        let mut other = run.to_vec();
        other[at] = byte;
        assert_eq!(write(&mut log, &other), INVALID, "byte {at} is {byte}");
    }
    let mut last = run.to_vec();
    last[9..17].fill(255);
    assert_eq!(write(&mut log, &last), INVALID);
    let own = [2, 7, 0, 0, 0, 0, 0, 0, 0, 2, 0, 0, 0, b'_', b'_', 0, 0, 0, 0];
    assert_eq!(write(&mut log, &own), INVALID);
    let mut text = [0; 8];
    assert!(unsafe { dafirondo_last_error(&mut log, text.as_mut_ptr(), text.len()) } > 8);
    let mut index = 99;
    assert_eq!(unsafe { dafirondo_last_index(&mut log, 7, &mut index) }, NONE);
    assert_eq!(write(&mut log, &whole), 0);
    assert_eq!((unsafe { dafirondo_last_index(&mut log, 7, &mut index) }, index), (0, 2));
    let (mut room, mut needed) = ([0; 1], 0);
    let key = b"k";
    let status = unsafe { dafirondo_get(&mut log, 7, key.as_ptr(), 1, room.as_mut_ptr(), 0, &mut needed) };
    assert_eq!((status, needed), (ROOM, 1));
    let status = unsafe { dafirondo_get(&mut log, 7, key.as_ptr(), 1, room.as_mut_ptr(), 1, &mut needed) };
    assert_eq!((status, needed, room[0]), (0, 1, b'v'));
    random_bytes(&mut log);
    assert_eq!(unsafe { dafirondo_close(log, text.as_mut_ptr(), text.len(), &mut needed) }, 0);
    std::fs::remove_dir_all(path).unwrap();
}

#[test]
fn an_error_leaves_the_callers_memory() {
    let path = std::env::temp_dir().join(format!("dafirondo-memory-{}", std::process::id()));
    let mut log = open(path.to_str().unwrap());
    let (mut written, mut index, mut needed, mut count, mut room) = (77, 77, 77, 77, [77; 4]);
    assert_eq!(unsafe { dafirondo_write(&mut log, [9].as_ptr(), 1, false, &mut written) }, INVALID);
    assert_eq!(unsafe { dafirondo_last_index(&mut log, 7, &mut index) }, NONE);
    let mut get = |len, needed: &mut usize, room: &mut [u8; 4]| unsafe {
        dafirondo_get(&mut log, 7, b"k".as_ptr(), 1, room.as_mut_ptr(), len, needed)
    };
    assert_eq!(get(4, &mut needed, &mut room), NONE);
    assert_eq!((written, index, needed, room), (77, 77, 77, [77; 4]));
    assert_eq!(write(&mut log, &batch()), 0);
    let mut fetch = |end, len, needed: &mut usize, count: &mut usize, room: &mut [u8; 4]| unsafe {
        dafirondo_fetch(&mut log, 7, 1, end, usize::MAX, room.as_mut_ptr(), len, needed, count)
    };
    assert_eq!(fetch(4, 4, &mut needed, &mut count, &mut room), NOT_FOUND);
    assert_eq!((needed, count, room), (77, 77, [77; 4]));
    assert_eq!(fetch(3, 4, &mut needed, &mut count, &mut room), ROOM);
    assert_eq!((needed, count, room), (10, 2, [77; 4]));
    assert_eq!(unsafe { dafirondo_close(log, room.as_mut_ptr(), room.len(), &mut needed) }, 0);
    std::fs::remove_dir_all(path).unwrap();
}

/// Writes 20,000 runs of bytes of a generator, most of which begin as an item does.
fn random_bytes(log: &mut Log) {
    let mut state = 88172645463325252u64;
    let mut next = || {
        state ^= state << 13;
        state ^= state >> 7;
        state ^= state << 17;
        state
    };
    for _ in 0..20_000 {
        let mut bytes: Vec<u8> = (0..next() % 64).map(|_| if next() % 3 == 0 { next() as u8 } else { 0 }).collect();
        if let Some(first) = bytes.first_mut() {
            *first = (next() % 7) as u8;
        }
        let status = write(log, &bytes);
        assert!([0, INVALID, 12].contains(&status), "{status}: {bytes:?}");
    }
}
