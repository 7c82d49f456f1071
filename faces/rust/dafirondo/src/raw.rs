//! The C face, and a handle whose calls take `&mut self`, so that one call at a time uses it.

use crate::error::{Error, Result};

/// `dafirondo` of `dafirondo.h`.
#[repr(C)]
struct Dafirondo {
    at: *mut u8,
}

const OK: i32 = 0;
const ROOM: i32 = 15;
const NONE: i32 = 16;

extern "C" {
    fn dafirondo_open(
        settings: *const u8,
        settings_len: usize,
        log_descriptor: i32,
        log: *mut Dafirondo,
        text: *mut u8,
        text_len: usize,
        needed: *mut usize,
    ) -> i32;
    fn dafirondo_close(log: Dafirondo, text: *mut u8, text_len: usize, needed: *mut usize) -> i32;
    fn dafirondo_write(
        log: *mut Dafirondo,
        batch: *const u8,
        batch_len: usize,
        sync: bool,
        written: *mut usize,
    ) -> i32;
    fn dafirondo_sync(log: *mut Dafirondo) -> i32;
    fn dafirondo_compact_to(log: *mut Dafirondo, group: u64, index: u64, dropped: *mut u64) -> i32;
    fn dafirondo_purge(log: *mut Dafirondo, groups: *mut u64, len: usize, needed: *mut usize) -> i32;
    fn dafirondo_purge_some(
        log: *mut Dafirondo,
        budget: u64,
        groups: *mut u64,
        len: usize,
        needed: *mut usize,
        more: *mut u64,
    ) -> i32;
    fn dafirondo_must_rewrite_rewrite_queue(log: *mut Dafirondo) -> i32;
    fn dafirondo_must_rewrite_append_queue(
        log: *mut Dafirondo,
        watermark: u64,
        has_watermark: bool,
        exit_after_step: u64,
        has_step: bool,
    ) -> i32;
    fn dafirondo_must_purge_all_stale(log: *mut Dafirondo) -> i32;
    fn dafirondo_fork(
        settings: *const u8,
        settings_len: usize,
        log_descriptor: i32,
        target: *const u8,
        target_len: usize,
        room: *mut u8,
        room_len: usize,
        needed: *mut usize,
    ) -> i32;
    fn dafirondo_check(
        settings: *const u8,
        settings_len: usize,
        log_descriptor: i32,
        room: *mut u8,
        room_len: usize,
        needed: *mut usize,
    ) -> i32;
    fn dafirondo_first_index(log: *mut Dafirondo, group: u64, index: *mut u64) -> i32;
    fn dafirondo_last_index(log: *mut Dafirondo, group: u64, index: *mut u64) -> i32;
    fn dafirondo_groups(log: *mut Dafirondo, groups: *mut u64, len: usize, needed: *mut usize) -> i32;
    fn dafirondo_get(
        log: *mut Dafirondo,
        group: u64,
        key: *const u8,
        key_len: usize,
        room: *mut u8,
        room_len: usize,
        needed: *mut usize,
    ) -> i32;
    fn dafirondo_entry(
        log: *mut Dafirondo,
        group: u64,
        index: u64,
        room: *mut u8,
        room_len: usize,
        needed: *mut usize,
    ) -> i32;
    fn dafirondo_fetch(
        log: *mut Dafirondo,
        group: u64,
        begin: u64,
        end: u64,
        max_size: usize,
        room: *mut u8,
        room_len: usize,
        needed: *mut usize,
        count: *mut usize,
    ) -> i32;
    fn dafirondo_scan(
        log: *mut Dafirondo,
        group: u64,
        start: *const u8,
        start_len: usize,
        has_start: bool,
        end: *const u8,
        end_len: usize,
        has_end: bool,
        reverse: bool,
        room: *mut u8,
        room_len: usize,
        needed: *mut usize,
        count: *mut usize,
    ) -> i32;
    fn dafirondo_last_error(log: *mut Dafirondo, text: *mut u8, text_len: usize) -> usize;
}

/// An open log, closed when it is dropped.
pub(crate) struct Handle {
    log: Dafirondo,
    // Room for results, which grows to what is needed.
    room: Vec<u8>,
    groups: Vec<u64>,
}

// The library keeps no thread of its own and nothing that belongs to a thread, so a handle may go to any thread.
unsafe impl Send for Handle {}

impl Handle {
    /// Opens the log of these settings.
    pub fn open(settings: &str, log_descriptor: i32) -> Result<Handle> {
        let mut log = Dafirondo { at: std::ptr::null_mut() };
        let mut text = vec![0; 1024];
        let mut needed = 0;
        let status = unsafe {
            dafirondo_open(
                settings.as_ptr(),
                settings.len(),
                log_descriptor,
                &mut log,
                text.as_mut_ptr(),
                text.len(),
                &mut needed,
            )
        };
        if status != OK {
            return Err(Error::of(status, || text_of(&text, needed)));
        }
        Ok(Handle {
            log,
            room: vec![0; 4096],
            groups: vec![0; 64],
        })
    }

    /// Closes the log.
    pub fn close(self) -> Result<()> {
        std::mem::ManuallyDrop::new(self).end()
    }

    /// Closes the log. The handle is used no more.
    fn end(&mut self) -> Result<()> {
        let log = Dafirondo { at: self.log.at };
        let mut text = vec![0; 1024];
        let mut needed = 0;
        let status = unsafe { dafirondo_close(log, text.as_mut_ptr(), text.len(), &mut needed) };
        self.room = Vec::new();
        self.groups = Vec::new();
        if status == OK {
            Ok(())
        } else {
            Err(Error::of(status, || text_of(&text, needed)))
        }
    }

    /// Writes an encoded batch. Returns the record's length.
    pub fn write(&mut self, batch: &[u8], sync: bool) -> Result<usize> {
        let mut written = 0;
        let status = unsafe {
            dafirondo_write(&mut self.log, batch.as_ptr(), batch.len(), sync, &mut written)
        };
        self.done(status)?;
        Ok(written)
    }

    /// Makes all batches durable.
    pub fn sync(&mut self) -> Result<()> {
        let status = unsafe { dafirondo_sync(&mut self.log) };
        self.done(status)
    }

    /// Drops a group's entries below an index. Returns how many.
    pub fn compact_to(&mut self, group: u64, index: u64) -> Result<u64> {
        let mut dropped = 0;
        let status = unsafe { dafirondo_compact_to(&mut self.log, group, index, &mut dropped) };
        self.done(status)?;
        Ok(dropped)
    }

    /// The index of a group's first entry.
    pub fn first_index(&mut self, group: u64) -> Result<Option<u64>> {
        let mut index = 0;
        let status = unsafe { dafirondo_first_index(&mut self.log, group, &mut index) };
        self.found(status, index)
    }

    /// The index of a group's last entry.
    pub fn last_index(&mut self, group: u64) -> Result<Option<u64>> {
        let mut index = 0;
        let status = unsafe { dafirondo_last_index(&mut self.log, group, &mut index) };
        self.found(status, index)
    }

    /// Purges, and returns the groups that should be compacted. There is room for all groups beforehand, since a purge
    /// isn't done twice.
    pub fn purge(&mut self) -> Result<Vec<u64>> {
        self.groups()?;
        let mut needed = 0;
        let status = unsafe {
            dafirondo_purge(&mut self.log, self.groups.as_mut_ptr(), self.groups.len(), &mut needed)
        };
        self.done(status)?;
        Ok(self.groups[..needed].to_vec())
    }

    /// Does one step of a purge. Returns the groups that should be compacted, and whether more may be due. There is room
    /// for all groups beforehand, since a step isn't done twice.
    pub fn purge_some(&mut self, budget: u64) -> Result<(Vec<u64>, bool)> {
        self.groups()?;
        let (mut needed, mut more) = (0, 0);
        let status = unsafe {
            let (groups, len) = (self.groups.as_mut_ptr(), self.groups.len());
            dafirondo_purge_some(&mut self.log, budget, groups, len, &mut needed, &mut more)
        };
        self.done(status)?;
        Ok((self.groups[..needed].to_vec(), more == 1))
    }

    /// Compacts the rewrite queue, whatever its size is.
    pub fn must_rewrite_rewrite_queue(&mut self) -> Result<()> {
        let status = unsafe { dafirondo_must_rewrite_rewrite_queue(&mut self.log) };
        self.done(status)
    }

    /// Rewrites the append queue up to a file, or does the first steps of that.
    pub fn must_rewrite_append_queue(
        &mut self,
        watermark: Option<u64>,
        exit_after_step: Option<u64>,
    ) -> Result<()> {
        let (number, step) = (watermark.unwrap_or_default(), exit_after_step.unwrap_or_default());
        let status = unsafe {
            dafirondo_must_rewrite_append_queue(
                &mut self.log,
                number,
                watermark.is_some(),
                step,
                exit_after_step.is_some(),
            )
        };
        self.done(status)
    }

    /// Removes all files from both queues that have nothing in use.
    pub fn must_purge_all_stale(&mut self) -> Result<()> {
        let status = unsafe { dafirondo_must_purge_all_stale(&mut self.log) };
        self.done(status)
    }

    /// The groups in which something is.
    pub fn groups(&mut self) -> Result<Vec<u64>> {
        loop {
            let mut needed = 0;
            let status = unsafe {
                dafirondo_groups(&mut self.log, self.groups.as_mut_ptr(), self.groups.len(), &mut needed)
            };
            if status == ROOM {
                self.groups.resize(needed, 0);
                continue;
            }
            self.done(status)?;
            return Ok(self.groups[..needed].to_vec());
        }
    }

    /// The value of a group's key.
    pub fn get(&mut self, group: u64, key: &[u8]) -> Result<Option<&[u8]>> {
        self.into_room(|log, room, len, needed| unsafe {
            dafirondo_get(log, group, key.as_ptr(), key.len(), room, len, needed)
        })
    }

    /// The entry of a group at an index.
    pub fn entry(&mut self, group: u64, index: u64) -> Result<Option<&[u8]>> {
        self.into_room(|log, room, len, needed| unsafe {
            dafirondo_entry(log, group, index, room, len, needed)
        })
    }

    /// The entries of a group, each with its length before it, and how many there are.
    pub fn fetch(&mut self, group: u64, begin: u64, end: u64, max_size: usize) -> Result<(&[u8], usize)> {
        let mut count = 0;
        let bytes = self.into_room(|log, room, len, needed| unsafe {
            dafirondo_fetch(log, group, begin, end, max_size, room, len, needed, &mut count)
        })?;
        Ok((bytes.unwrap_or_default(), count))
    }

    /// The keys of a group within the bounds and their values, each with its length before it.
    pub fn scan(
        &mut self,
        group: u64,
        start: Option<&[u8]>,
        end: Option<&[u8]>,
        reverse: bool,
    ) -> Result<&[u8]> {
        let (first, last) = (start.unwrap_or_default(), end.unwrap_or_default());
        let mut count = 0;
        let bytes = self.into_room(|log, room, len, needed| unsafe {
            dafirondo_scan(
                log,
                group,
                first.as_ptr(),
                first.len(),
                start.is_some(),
                last.as_ptr(),
                last.len(),
                end.is_some(),
                reverse,
                room,
                len,
                needed,
                &mut count,
            )
        })?;
        Ok(bytes.unwrap_or_default())
    }

    /// Makes a call that puts bytes into the room, again if the room is too small. None if there is nothing.
    fn into_room(
        &mut self,
        mut call: impl FnMut(*mut Dafirondo, *mut u8, usize, *mut usize) -> i32,
    ) -> Result<Option<&[u8]>> {
        loop {
            let mut needed = 0;
            let status = call(&mut self.log, self.room.as_mut_ptr(), self.room.len(), &mut needed);
            match status {
                OK => return Ok(Some(&self.room[..needed])),
                NONE => return Ok(None),
                ROOM => self.room.resize(needed, 0),
                status => return Err(self.failed(status)),
            }
        }
    }

    /// The result of a call that returns nothing else.
    fn done(&mut self, status: i32) -> Result<()> {
        if status == OK {
            Ok(())
        } else {
            Err(self.failed(status))
        }
    }

    /// The result of a call that returns a number or none.
    fn found(&mut self, status: i32, number: u64) -> Result<Option<u64>> {
        match status {
            OK => Ok(Some(number)),
            NONE => Ok(None),
            status => Err(self.failed(status)),
        }
    }

    /// The error of a call that returned this status.
    fn failed(&mut self, status: i32) -> Error {
        Error::of(status, || {
            let mut text = vec![0; 1024];
            let needed = unsafe { dafirondo_last_error(&mut self.log, text.as_mut_ptr(), text.len()) };
            text_of(&text, needed)
        })
    }
}

impl Drop for Handle {
    fn drop(&mut self) {
        let _ = self.end();
    }
}

/// Copies the log of these settings, which nobody has open, into a directory. Returns the paths of the copies, each with
/// its length before it, or nothing if there are so many that the room was too short: the copies are made all the same.
pub(crate) fn fork(settings: &str, log_descriptor: i32, target: &str) -> Result<Option<Vec<u8>>> {
    let mut room = vec![0; 1 << 20];
    let mut needed = 0;
    let status = unsafe {
        dafirondo_fork(
            settings.as_ptr(),
            settings.len(),
            log_descriptor,
            target.as_ptr(),
            target.len(),
            room.as_mut_ptr(),
            room.len(),
            &mut needed,
        )
    };
    match status {
        OK => {
            room.truncate(needed);
            Ok(Some(room))
        }
        ROOM => Ok(None),
        status => Err(Error::of(status, || text_of(&room, needed))),
    }
}

/// Checks the log of these settings, which nobody has open, for holes. Returns 16 bytes for each group that has one.
pub(crate) fn check(settings: &str, log_descriptor: i32) -> Result<Vec<u8>> {
    let mut room = vec![0; 4096];
    loop {
        let mut needed = 0;
        let status = unsafe {
            dafirondo_check(
                settings.as_ptr(),
                settings.len(),
                log_descriptor,
                room.as_mut_ptr(),
                room.len(),
                &mut needed,
            )
        };
        match status {
            OK => {
                room.truncate(needed);
                return Ok(room);
            }
            ROOM => room.resize(needed, 0),
            status => return Err(Error::of(status, || text_of(&room, needed))),
        }
    }
}

/// The text of so many bytes, of which the start is here.
fn text_of(text: &[u8], needed: usize) -> String {
    String::from_utf8_lossy(&text[..needed.min(text.len())]).into_owned()
}
