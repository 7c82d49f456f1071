//! Group commit: batches of several threads are written together and share one sync.

use std::sync::atomic::{AtomicBool, AtomicUsize, Ordering};
use std::sync::{Arc, Mutex, MutexGuard};
use std::thread::{self, Thread};
use std::time::{Duration, Instant};

use crate::batch::LogBatch;
use crate::error::{Error, Result};

/// Batches become one record only up to so many bytes, and so many groups.
const MOST_BYTES: usize = 65_536;
const MOST_GROUPS: usize = 64;

/// How long a thread stays awake for its result: two syncs, but no longer than this. To wake a thread takes as long as a
/// write.
const MOST_AWAKE: Duration = Duration::from_micros(200);

/// A batch that was written, or wasn't, and the length of its record.
type Done = (LogBatch, Result<usize>);

/// Where a thread waits for its result, or to lead.
struct Seat {
    done: Mutex<Option<Done>>,
    is_called: AtomicBool,
    thread: Thread,
}

impl Seat {
    fn new() -> Seat {
        Seat { done: Mutex::new(None), is_called: AtomicBool::new(false), thread: thread::current() }
    }

    fn answer(&self, done: Done) {
        *self.done.lock().unwrap_or_else(|poisoned| poisoned.into_inner()) = Some(done);
        self.call();
    }

    fn take(&self) -> Option<Done> {
        self.done.lock().unwrap_or_else(|poisoned| poisoned.into_inner()).take()
    }

    /// Calls the thread, which may sleep.
    fn call(&self) {
        self.is_called.store(true, Ordering::Release);
        self.thread.unpark();
    }

    /// Waits for a call: for this long awake, then asleep.
    fn wait(&self, awake: Duration) {
        let start = Instant::now();
        while !self.is_called.swap(false, Ordering::Acquire) {
            if start.elapsed() < awake {
                thread::yield_now();
            } else {
                thread::park();
            }
        }
    }
}

/// A batch that waits.
struct Waiting {
    seat: Arc<Seat>,
    batch: LogBatch,
    sync: bool,
}

/// How many batches the last round wrote, and how long its sync took: no time if nobody asked for one.
#[derive(Clone, Copy, Default)]
struct Pace {
    batches: usize,
    sync: Duration,
}

#[derive(Default)]
struct Queue {
    waiting: Vec<Waiting>,
    // Whether a thread writes what waited.
    is_led: bool,
    last: Pace,
}

/// The batches that wait. The first thread that finds nobody writing leads: it writes all that wait, with its own.
/// Before that, it waits for as many batches as the last round had, but no longer than the last sync took.
#[derive(Default)]
pub(crate) struct GroupCommit {
    queue: Mutex<Queue>,
    // How many batches wait.
    count: AtomicUsize,
}

/// What a leader writes to.
pub(crate) trait Sink {
    /// Writes a batch without a sync, and returns the length of its record.
    fn write(&mut self, bytes: &[u8]) -> Result<usize>;

    /// Makes all batches durable.
    fn sync(&mut self) -> Result<()>;
}

impl GroupCommit {
    /// Writes a batch by `lock`, which is called by the thread that leads. Returns the batch, and the length of its
    /// record. With `sync`, the batch is durable then.
    pub fn write<S: Sink>(&self, batch: LogBatch, sync: bool, lock: impl Fn() -> S) -> Done {
        let seat = Arc::new(Seat::new());
        let mut queue = self.lock();
        queue.waiting.push(Waiting { seat: Arc::clone(&seat), batch, sync });
        self.count.store(queue.waiting.len(), Ordering::Relaxed);
        loop {
            if queue.is_led || queue.waiting.is_empty() {
                let awake = MOST_AWAKE.min(2 * queue.last.sync);
                drop(queue);
                seat.wait(awake);
            } else {
                queue.is_led = true;
                let pace = queue.last;
                drop(queue);
                self.lead(pace, &lock);
            }
            if let Some(done) = seat.take() {
                return done;
            }
            queue = self.lock();
        }
    }

    /// Writes what waits, and gives each thread its result. Before that, another thread may lead already.
    fn lead<S: Sink>(&self, last: Pace, lock: impl Fn() -> S) {
        let mut round = Round { group: self, pace: last };
        let mut taken = self.gather(last);
        let (results, pace) = write_and_sync(&taken.waiting, lock());
        round.pace = pace;
        drop(round);
        for (Waiting { seat, batch, .. }, result) in taken.waiting.drain(..).zip(results) {
            seat.answer((batch, result));
        }
    }

    /// Takes the batches that wait: those of threads that come back from the last round come into this one too.
    fn gather(&self, last: Pace) -> Taken {
        let start = Instant::now();
        while self.count.load(Ordering::Relaxed) < last.batches && start.elapsed() < last.sync {
            thread::yield_now();
        }
        let mut queue = self.lock();
        self.count.store(0, Ordering::Relaxed);
        Taken { waiting: std::mem::take(&mut queue.waiting) }
    }

    fn lock(&self) -> MutexGuard<'_, Queue> {
        self.queue.lock().unwrap_or_else(|poisoned| poisoned.into_inner())
    }
}

/// A round of a leader. When it ends, another thread may lead: one that waits is called.
struct Round<'a> {
    group: &'a GroupCommit,
    pace: Pace,
}

impl Drop for Round<'_> {
    fn drop(&mut self) {
        let mut queue = self.group.lock();
        queue.is_led = false;
        queue.last = self.pace;
        if let Some(next) = queue.waiting.first() {
            next.seat.call();
        }
    }
}

/// Batches that a leader took. If it panics, they get `Failed`.
struct Taken {
    waiting: Vec<Waiting>,
}

impl Drop for Taken {
    fn drop(&mut self) {
        for Waiting { seat, batch, .. } in self.waiting.drain(..) {
            seat.answer((batch, Err(Error::Failed)));
        }
    }
}

/// Writes batches in order, and then syncs once if one of those that were written asks for it.
fn write_and_sync(waiting: &[Waiting], mut sink: impl Sink) -> (Vec<Result<usize>>, Pace) {
    let written = write_all(waiting, &mut sink);
    let is_asked = waiting.iter().zip(&written).any(|(one, written)| one.sync && written.is_ok());
    let start = Instant::now();
    let synced = if is_asked { sink.sync() } else { Ok(()) };
    let pace = Pace { batches: waiting.len(), sync: if is_asked { start.elapsed() } else { Duration::ZERO } };
    let results = waiting.iter().zip(written).map(|(one, written)| ended(written, one.sync, &synced)).collect();
    (results, pace)
}

/// Writes batches in order. Those that follow one another and touch no group twice become one record.
fn write_all(waiting: &[Waiting], sink: &mut impl Sink) -> Vec<Result<usize>> {
    let mut written = Vec::with_capacity(waiting.len());
    while written.len() < waiting.len() {
        let rest = &waiting[written.len()..];
        written.extend(write_together(&rest[..apart(rest)], sink));
    }
    written
}

/// How many batches, from the first on, touch no group twice and are small enough together: at least one.
fn apart(waiting: &[Waiting]) -> usize {
    let (mut groups, mut bytes) = (Vec::new(), 0);
    let fits = |Waiting { batch, .. }: &&Waiting| {
        bytes += batch.bytes.len();
        let is_free = batch.groups.iter().all(|group| !groups.contains(group));
        groups.extend_from_slice(&batch.groups);
        is_free && bytes <= MOST_BYTES && groups.len() <= MOST_GROUPS
    };
    waiting.iter().take_while(fits).count().max(1)
}

/// Writes batches as one record. If that fails, none of them was written, and each is written as a record of its own.
fn write_together(waiting: &[Waiting], sink: &mut impl Sink) -> Vec<Result<usize>> {
    if let [one] = waiting {
        return vec![sink.write(&one.batch.bytes)];
    }
    let parts: Vec<&[u8]> = waiting.iter().map(|one| one.batch.bytes.as_slice()).collect();
    match sink.write(&parts.concat()) {
        Err(error) if error != Error::Failed => parts.iter().map(|bytes| sink.write(bytes)).collect(),
        written => vec![written; waiting.len()],
    }
}

/// The result of a batch after the sync of its round.
fn ended(written: Result<usize>, sync: bool, synced: &Result<()>) -> Result<usize> {
    match (written, synced) {
        (Ok(_), Err(error)) if sync => Err(Error::clone(error)),
        (written, _) => written,
    }
}

#[cfg(test)]
mod tests {
    use super::{GroupCommit, Sink};
    use crate::batch::LogBatch;
    use crate::error::{Error, Result};
    use std::sync::{Mutex, MutexGuard};
    use std::time::Duration;

    /// A batch of two bytes for a group.
    fn batch(group: u8, number: u8) -> LogBatch {
        LogBatch { bytes: vec![group, number], groups: vec![group.into()] }
    }

    #[derive(Default)]
    struct Counts {
        written: Vec<Vec<u8>>,
        records: usize,
        durable: usize,
        syncs: usize,
        fails: bool,
    }

    impl Sink for MutexGuard<'_, Counts> {
        fn write(&mut self, bytes: &[u8]) -> Result<usize> {
            if bytes.is_empty() || bytes.chunks(2).any(|one| one[1] == 255) {
                return Err(Error::Hole);
            }
            self.written.extend(bytes.chunks(2).map(<[u8]>::to_vec));
            self.records += 1;
            Ok(bytes.len())
        }

        fn sync(&mut self) -> Result<()> {
            std::thread::sleep(Duration::from_millis(2));
            if self.fails {
                return Err(Error::Failed);
            }
            self.syncs += 1;
            self.durable = self.written.len();
            Ok(())
        }
    }

    /// Lets threads write batches of their own groups, each with a sync.
    fn write_by_threads(threads: u8, each: u8, group_of: fn(u8) -> u8) -> Counts {
        let (group, counts) = (GroupCommit::default(), Mutex::new(Counts::default()));
        std::thread::scope(|scope| {
            for thread in 0..threads {
                let (group, counts) = (&group, &counts);
                scope.spawn(move || {
                    for number in 0..each {
                        let own = batch(group_of(thread), number);
                        let (back, done) = group.write(own.clone(), true, || counts.lock().unwrap());
                        assert_eq!((&back, done.is_ok()), (&own, true));
                        let counts = counts.lock().unwrap();
                        let at = counts.written.iter().position(|bytes| *bytes == own.bytes);
                        assert!(at.unwrap() < counts.durable);
                    }
                });
            }
        });
        counts.into_inner().unwrap()
    }

    #[test]
    fn many_threads_share_syncs_and_records() {
        let counts = write_by_threads(8, 50, |thread| thread);
        assert_eq!(counts.written.len(), 400);
        assert!(counts.syncs < 400, "{}", counts.syncs);
        assert!(counts.records < 400, "{}", counts.records);
        for thread in 0..8u8 {
            let own = counts.written.iter().filter(|bytes| bytes[0] == thread);
            assert!(own.map(|bytes| bytes[1]).eq(0..50));
        }
    }

    #[test]
    fn batches_of_one_group_have_records_of_their_own() {
        let counts = write_by_threads(4, 50, |_| 7);
        assert_eq!((counts.written.len(), counts.records), (200, 200));
    }

    #[test]
    fn threads_that_come_back_share_the_next_sync() {
        // Without the wait for as many batches as before, rounds of one and of three batches take turns.
        let counts = write_by_threads(4, 100, |thread| thread);
        assert!(counts.syncs < 150, "{} syncs of 400 batches", counts.syncs);
    }

    #[test]
    fn a_batch_that_fails_fails_alone() {
        let (group, counts) = (GroupCommit::default(), Mutex::new(Counts::default()));
        let (back, done) = group.write(LogBatch::default(), true, || counts.lock().unwrap());
        assert_eq!((back, done), (LogBatch::default(), Err(Error::Hole)));
        assert_eq!(counts.lock().unwrap().syncs, 0);
        let (_, done) = group.write(batch(1, 1), false, || counts.lock().unwrap());
        assert_eq!((done, counts.lock().unwrap().syncs), (Ok(2), 0));
    }

    #[test]
    fn a_batch_that_fails_in_a_shared_record_fails_alone() {
        let mut counts = Mutex::new(Counts::default());
        let waiting: Vec<_> = [batch(1, 1), batch(2, 255), batch(3, 3)].map(waiting).into();
        let written = super::write_all(&waiting, &mut counts.lock().unwrap());
        assert_eq!(written, [Ok(2), Err(Error::Hole), Ok(2)]);
        let counts = counts.get_mut().unwrap();
        assert_eq!((&counts.written, counts.records), (&vec![vec![1, 1], vec![3, 3]], 2));
    }

    #[test]
    fn a_shared_record_has_each_group_once() {
        let counts = Mutex::new(Counts::default());
        let waiting: Vec<_> = [batch(1, 1), batch(2, 2), batch(1, 3), batch(2, 4)].map(waiting).into();
        let written = super::write_all(&waiting, &mut counts.lock().unwrap());
        assert_eq!((written, counts.lock().unwrap().records), (vec![Ok(4); 4], 2));
    }

    /// A batch that waits.
    fn waiting(batch: LogBatch) -> super::Waiting {
        super::Waiting { seat: std::sync::Arc::new(super::Seat::new()), batch, sync: true }
    }

    #[test]
    fn a_failed_sync_fails_those_that_asked_for_it() {
        let (group, counts) = (GroupCommit::default(), Mutex::new(Counts::default()));
        counts.lock().unwrap().fails = true;
        let (_, done) = group.write(batch(1, 1), true, || counts.lock().unwrap());
        assert_eq!(done, Err(Error::Failed));
        let (_, done) = group.write(batch(1, 2), false, || counts.lock().unwrap());
        assert_eq!(done, Ok(2));
    }
}
