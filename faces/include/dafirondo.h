/* dafirondo.h: a multi-Raft log store, as a static library.
**
** A log keeps the entries, the keys and the values of many Raft groups in files of one directory. A write is one record
** of one batch, and a sync makes all earlier records durable.
**
** HANDLES AND OWNERSHIP
** A `dafirondo` is a log that is open. dafirondo_open() fills it and dafirondo_close() ends it; in between, the caller
** keeps its bytes as they are, and may move them. No call keeps a pointer to memory of the caller. No call returns memory
** that the caller has to free: each result is put into room that the caller gives.
**
** POINTERS AND LENGTHS
** No pointer may be null, even if its length is 0. Memory that a call reads must not change during the call. The memory
** of two parameters must not overlap, unless both are only read.
**
** ROOM
** A call that returns bytes takes `room`, its length, and `needed`. If the room is large enough, the bytes are at its
** start and `*needed` says how many. Else the call returns DAFIRONDO_ROOM, and `*needed` says how large the room must be:
** call again. `*needed` says nothing after any other status.
**
** THREADS
** A handle may be used by any thread, but by one call at a time, readers included: the calls of several threads need a
** lock around them. Use the lock's release and acquire, or start and join, to hand it over. Two logs need no common lock.
** No call starts a thread, takes a lock, installs a handler or waits, but for the disk. No call may be made from a signal
** handler, or from the forked child of a process with threads.
**
** MEMORY
** Memory comes from malloc, realloc and free. All bytes of the log's files are in memory while it is open.
**
** ERRORS
** A call returns 0 (DAFIRONDO_OK) or one of the numbers below. dafirondo_last_error() tells more. After
** DAFIRONDO_FAILED, every later call but dafirondo_last_error() and dafirondo_close() returns DAFIRONDO_FAILED: close the
** log and open it again. Nothing that a sync made durable is lost.
**
** DURABILITY
** A batch is durable when dafirondo_write() with `sync`, or a later dafirondo_sync(), returned DAFIRONDO_OK: no crash of
** the process or the machine loses it then. A batch that was written without a sync survives the end of the process, but
** maybe not that of the machine. A batch is never kept in part. If a crash loses a batch, it loses all later ones too.
** A call that failed with another status than DAFIRONDO_FAILED has written nothing of its batch.
*/
#ifndef DAFIRONDO_H
#define DAFIRONDO_H

#include <stdbool.h>
#include <stddef.h>
#include <stdint.h>

#ifdef __cplusplus
extern "C" {
#endif

/* What a call returns. */
enum {
  DAFIRONDO_OK = 0,
  DAFIRONDO_INVALID = 1,       /* an argument is invalid, and nothing was done */
  DAFIRONDO_CORRUPTION = 2,    /* the log's files hold bytes that no log has */
  DAFIRONDO_IO = 3,            /* a call of the operating system failed */
  DAFIRONDO_CODEC = 4,         /* a number in the log's files is damaged */
  DAFIRONDO_TRY_AGAIN = 5,     /* there was no space, nothing was written, and the same call may succeed */
  DAFIRONDO_COMPACTED = 6,     /* the entry was dropped by a compaction */
  DAFIRONDO_NOT_FOUND = 7,     /* there is no such entry */
  DAFIRONDO_FULL = 8,          /* a batch has too many bytes */
  DAFIRONDO_OTHER = 9,         /* another error, such as invalid settings */
  DAFIRONDO_MEMORY = 10,       /* memory ran out */
  DAFIRONDO_FAILED = 11,       /* the log failed, and takes nothing more until it is opened again */
  DAFIRONDO_HOLE = 12,         /* the entries would leave a gap after those that are there */
  DAFIRONDO_NUMBER_RANGE = 13, /* the numbers of files have run out */
  DAFIRONDO_DIRECTORY = 14,    /* a directory can't be opened, for example because another log uses it */
  DAFIRONDO_ROOM = 15,         /* the room is too small; `*needed` says how large it must be */
  DAFIRONDO_NONE = 16          /* there is no such index or value */
};

/* An open log. */
typedef struct dafirondo {
  void *at;
} dafirondo;

/* Opens the log of these settings: a TOML text in UTF-8, as docs/SETTINGS.md has it, with at least the key `dir`. Makes
** the directories if they aren't there; their parents must exist. Locks them until the log is closed: a second open fails
** with DAFIRONDO_DIRECTORY, in this process or another. Reads all files on the caller's thread.
**
** `log_descriptor` gets a line for each warning; none if it is negative. It must stay open while the log is.
**
** `log` is filled if the call returns DAFIRONDO_OK, and only then. Else the start of the error's text is put into `text`, as
** far as `text_len` goes, and `*needed` is the length of the whole text. Nothing has to be closed then.
**
** What the log returns after DAFIRONDO_OK is durable: it was written back and synced.
*/
int32_t dafirondo_open(const uint8_t *settings, size_t settings_len, int32_t log_descriptor, dafirondo *log,
                       uint8_t *text, size_t text_len, size_t *needed);

/* Closes the log: truncates and syncs its active files, and unlocks its directories. If it returns DAFIRONDO_OK, all batches
** are durable. Else the text of the error is put into `text` as dafirondo_open() does, and batches since the last sync may
** not be durable. In both cases all memory is freed and the handle is used no more.
*/
int32_t dafirondo_close(dafirondo log, uint8_t *text, size_t text_len, size_t *needed);

/* Writes a batch as one record. With `sync`, makes this record and all earlier ones durable. An empty batch writes nothing;
** with `sync`, use dafirondo_sync() instead. `*written` gets the record's length.
**
** A batch is its items, one after another. All numbers are little-endian and unaligned. An item is its kind (1 byte), its
** group (8 bytes), and then:
**
**   kind 1, entries      the index of the first (8), their count (4), and for each its length (4) and its bytes
**   kind 2, a put        the key's length (4), the key, the value's length (4), the value
**   kind 3, a deletion   the key's length (4), the key
**   kind 4, a compaction the index (8): the group's entries below it are dropped
**   kind 5, a clean      nothing: the group's entries and keys are dropped
**
** Entries that begin at or below a group's last index replace all of its entries from their first index on.
**
** Fails with:
**   DAFIRONDO_INVALID   the bytes are no batch, a key begins with two underscores, or an index is 2^64 - 1
**   DAFIRONDO_HOLE      entries would leave a gap after the group's last one
**   DAFIRONDO_FULL      the batch has more than 2,147,483,647 bytes of entries
**   DAFIRONDO_IO, DAFIRONDO_TRY_AGAIN, DAFIRONDO_NUMBER_RANGE, DAFIRONDO_MEMORY: nothing of the batch was written
**   DAFIRONDO_FAILED    the log failed; the batch may be in it or not
*/
int32_t dafirondo_write(dafirondo *log, const uint8_t *batch, size_t batch_len, bool sync, size_t *written);

/* Makes all batches durable. Fails with DAFIRONDO_FAILED. */
int32_t dafirondo_sync(dafirondo *log);

/* Drops a group's entries below an index: writes a record, without a sync. `*dropped` gets how many entries this drops. Fails
** as dafirondo_write() does. After a compaction past the last index, the group has no first and no last index: keep a Raft
** log's base under a key.
*/
int32_t dafirondo_compact_to(dafirondo *log, uint64_t group, uint64_t index, uint64_t *dropped);

/* Purges each queue of files that is past its threshold in the settings: what is live is copied, and old files are deleted.
** `groups` gets the groups that the caller should compact. If it has no room for them, the purge is done all the same. Takes
** long, and syncs what it copies before it deletes. Nothing that the log returns changes.
*/
int32_t dafirondo_purge(dafirondo *log, uint64_t *groups, size_t groups_len, size_t *needed);

/* Does one step of what dafirondo_purge() does, so that a program can do other work between two steps. A step copies groups
** until it has copied `budget` bytes, but at least one group. `more` becomes 1 if more may be due, else 0: repeat the call while
** it is 1. `groups` gets the groups that the caller should compact. If it has no room for them, the step is done all the same,
** and `more` is set too. After another error than DAFIRONDO_ROOM, `more` is unchanged.
*/
int32_t dafirondo_purge_some(dafirondo *log, uint64_t budget, uint64_t *groups, size_t groups_len, size_t *needed,
                             uint64_t *more);

/* The three calls below purge regardless of the thresholds. Each syncs Append first, ignores what is pinned, and changes
** nothing that the log returns. They fail with DAFIRONDO_FAILED, DAFIRONDO_IO, DAFIRONDO_TRY_AGAIN,
** DAFIRONDO_NUMBER_RANGE or DAFIRONDO_MEMORY.
**
** dafirondo_must_rewrite_rewrite_queue() writes what is live in Rewrite there again, and deletes Rewrite's old files.
**
** dafirondo_must_rewrite_append_queue() writes what is live in Append's files up to a number, the watermark, to Rewrite, and
** removes these files. Without `has_watermark`, or if the number is too high, it is that of the last file. With `has_step`
** it ends after the first step (1: Append is synced and rotated) or the second one (2: all groups are written to Rewrite).
**
** dafirondo_must_purge_all_stale() removes all files of both queues that have nothing in use.
*/
int32_t dafirondo_must_rewrite_rewrite_queue(dafirondo *log);
int32_t dafirondo_must_rewrite_append_queue(dafirondo *log, uint64_t watermark, bool has_watermark,
                                            uint64_t exit_after_step, bool has_step);
int32_t dafirondo_must_purge_all_stale(dafirondo *log);

/* The index of a group's first or last entry, or DAFIRONDO_NONE. */
int32_t dafirondo_first_index(dafirondo *log, uint64_t group, uint64_t *index);
int32_t dafirondo_last_index(dafirondo *log, uint64_t group, uint64_t *index);

/* The groups to which something was written since they were last cleaned, in ascending order. */
int32_t dafirondo_groups(dafirondo *log, uint64_t *groups, size_t groups_len, size_t *needed);

/* The value of a group's key, or DAFIRONDO_NONE. */
int32_t dafirondo_get(dafirondo *log, uint64_t group, const uint8_t *key, size_t key_len, uint8_t *room,
                      size_t room_len, size_t *needed);

/* The entry of a group at an index, or DAFIRONDO_NONE. */
int32_t dafirondo_entry(dafirondo *log, uint64_t group, uint64_t index, uint8_t *room, size_t room_len,
                        size_t *needed);

/* The entries of a group from `begin` on, below `end`: always the first, and then more while the sum of their lengths is at
** most `max_size`. `*count` gets how many there are. They follow each other in the room, each with its length before it (4
** bytes). Fails with DAFIRONDO_COMPACTED if `begin` is below the first index, and with DAFIRONDO_NOT_FOUND if the group has no
** entry `end - 1`. After DAFIRONDO_ROOM, `*needed` and `*count` are those of the whole result.
*/
int32_t dafirondo_fetch(dafirondo *log, uint64_t group, uint64_t begin, uint64_t end, size_t max_size, uint8_t *room,
                        size_t room_len, size_t *needed, size_t *count);

/* The keys of a group from `start` on and below `end`, and their values; a bound whose flag isn't set is open, but its pointer
** must not be null. With `reverse`, from the last key to the first. `*count` gets how many keys there are. In the room each
** key and each value has its length before it (4 bytes), and a value follows its key.
*/
int32_t dafirondo_scan(dafirondo *log, uint64_t group, const uint8_t *start, size_t start_len, bool has_start,
                       const uint8_t *end, size_t end_len, bool has_end, bool reverse, uint8_t *room, size_t room_len,
                       size_t *needed, size_t *count);

/* The two calls below are for a log that nobody has open. They take settings and `log_descriptor` as dafirondo_open() does,
** but make no directory of the log: if one isn't there, or another log uses it, they fail with DAFIRONDO_DIRECTORY. They lock
** the directories while they run. If they fail, the start of the error's text is put into `room`, and `*needed` is the
** length of the whole text.
*/

/* Copies the files of the log of these settings into the directory `target`, and syncs each copy. It makes the directory: that
** may not be there yet, and its parent must be. The log doesn't change. `room` gets the paths of the copies, each with its
** length before it (4 bytes). After DAFIRONDO_ROOM the copies are made all the same.
**
** Fails with DAFIRONDO_INVALID if the settings recycle files (the key `enable-log-recycle`, which is usually true) or
** tolerate any corruption, or if `target` is in one of the log's directories. Fails with DAFIRONDO_CORRUPTION if a file of the
** log has a wrong name, and with DAFIRONDO_IO if the directory can't be made or a file can't be copied. What was copied
** stays.
*/
int32_t dafirondo_fork(const uint8_t *settings, size_t settings_len, int32_t log_descriptor, const uint8_t *target,
                       size_t target_len, uint8_t *room, size_t room_len, size_t *needed);

/* Checks the log of these settings for holes in its entries. `room` gets 16 bytes for each group that has a hole, in
** ascending order: the group (8), and the index before its first hole (8). `*needed` is 0 if there is none.
**
** Reads the records that an open would read, and changes no file. Damage that the settings tolerate ends the reading of its
** file. Fails with DAFIRONDO_CORRUPTION on damage that they don't tolerate.
*/
int32_t dafirondo_check(const uint8_t *settings, size_t settings_len, int32_t log_descriptor, uint8_t *room,
                        size_t room_len, size_t *needed);

/* Puts the start of the text of the last error of this handle into `text`, and returns the length of the whole text: 0 if no
** call failed. The text is UTF-8 and has no 0 at its end.
*/
size_t dafirondo_last_error(dafirondo *log, uint8_t *text, size_t text_len);

#ifdef __cplusplus
}
#endif

#endif
