#!/usr/bin/env python3
"""tools/pictures/append.py: draws docs/pictures/append.svg, one append with its relation at each layer."""
from shapes import BLUE, GREY, RED, Picture

WRITE, SYNC, GAP = (162, 458), (628, 436), 18
# title, crate, fill, then of the write and of the sync: the call, what holds if it succeeds, and what if it fails, each as
# a name with its words, and the law by which that follows from the row below
ROWS = [
    ("Engine", "engine_core", "#dbe9fb",
     ("LogEngine::write", "WritesBytes", "the batch is pending, and in the memtables",
      "NotWritten", "nothing was written, or the engine has failed",
      "batches_are_written, refusals_leave_no_trace"),
     ("LogEngine::sync", "SyncsAppend", "all batches are in the map, none is pending",
      "NotSynced", "the engine has failed; its log stays", "syncs_are_held, failures_leave_logs")),
    ("Batch", "block_cache", "#e2f4ee",
     ("SignedBatch", "SaysItself", "the bytes are its record, for any file number", None, None, None), None),
    ("Both pipes", "dual_pipes", "#e3f1f7",
     ("PipeLog::append", "AppendsTo", "the queue's files have the record",
      "FailsToAppendTo", "truncated away, left out, or the pipes failed",
      "append_is_a_step, refused_append_is_a_step"),
     ("PipeLog::sync", "SyncsQueue", "all of the queue is synced",
      "FailsToSyncQueue", "the log is unchanged, and may be opened", "sync_is_a_step")),
    ("One pipe", "file_pipe", "#e3f1f7",
     ("SinglePipe::append", "AppendsAt", "one write put it into the active file",
      "AppendFails", "the rotation failed, or the write did", None),
     ("SinglePipe::sync", "SyncsPipe", "one call synced all its records",
      "FailsToSyncPipe", "that call failed", None)),
    ("Active file", "active_file", "#e3f1f7",
     ("append_record", "AppendsRecord", "it is the last pending record of the file",
      "FailsToAppend", "truncated and synced, or it may be there", None),
     ("sync_records", "SyncsAll", "all its records are synced",
      "FailsToSyncAll", "a file call failed", None)),
    ("One file", "file_writer", "#e3f1f7",
     ("LogFileWriter::write", "WritesNext", "the bytes are at the offset, which moves on",
      "FailsToWriteNext", "the offset stays; the file may be longer", None),
     ("LogFileWriter::sync", "Syncs", "the file's bytes are durable",
      "FailsToSync", "none became durable, except at a stop", None)),
    ("File system", "fs", "#eaeef2",
     ("FileSystem::write_at", "Writes", "the bytes are in the file, not yet synced",
      "FailsToWrite", "some of the bytes may be written", None),
     ("FileSystem::sync", "Syncs", "the file's bytes are durable",
      "FailsToSync", "none became durable, except at a stop", None)),
]


def draw_call(picture, x, y, w, h, fill, call):
    """One call with its two results."""
    name, success, then, failure, left, law = call
    picture.box(x, y, w, h, fill)
    picture.text(x + 10, y + 19, name, 12, name="name", bold=True, room=w - 20)
    for line, (word, words, ink) in enumerate([(success, then, BLUE), (failure, left, RED)]):
        if word:
            picture.text(x + 10, y + 38 + 18 * line, word, 12, ink, name="name", room=122)
            picture.text(x + 136, y + 38 + 18 * line, words, 12, room=w - 140)
    if law:
        picture.text(x + 10, y + 75, "by", 11.5, GREY)
        picture.names(x + 31, y + 75, [law], w - 36, 11.5, GREY)


def draw_row(picture, y, row):
    """A layer with its calls; returns where the next one begins."""
    title, crate, fill, write, sync = row
    h = 85 if write[5] else 66 if write[3] else 48
    picture.text(16, y + 20, title, 14, bold=True, room=140)
    picture.text(16, y + 38, "raft_log_" + crate, 11, GREY, name="name", room=134)
    draw_call(picture, *WRITE[:1], y, WRITE[1], h, fill, write)
    if sync:
        draw_call(picture, *SYNC[:1], y, SYNC[1], h, fill, sync)
    return y + h + GAP


def draw_arrows(picture, y, next_y, sync):
    """How the calls go down from one row to the next."""
    picture.arrow(WRITE[0] + 60, y, WRITE[0] + 60, next_y - 2)
    if sync:
        picture.arrow(SYNC[0] + 60, sync, SYNC[0] + 60, next_y - 2)


def draw_crash(picture, y):
    """What a crash leaves, and what an open then finds."""
    x = WRITE[0]
    picture.box(x, y, SYNC[0] + SYNC[1] - x, 88, "#fdebd8")
    picture.text(16, y + 20, "A crash", 14, bold=True)
    picture.text(16, y + 39, "at any moment", 12, GREY)
    picture.text(x + 10, y + 20, "IsImage", 12, BLUE, name="name")
    kept = "A synced byte stays if no later change covers it. Other bytes of a file are open."
    picture.text(x + 172, y + 20, kept, 12, room=730)
    picture.text(x + 10, y + 40, "crashed_engines_open", 12, BLUE, name="name")
    lines = ["Without a CRC collision, an open finds the map after some first pending batches.",
             "After a sync none is pending, so it finds the whole map.",
             "If the open fails, the log is left with that map."]
    for line, words in enumerate(lines):
        picture.text(x + 172, y + 40 + 19 * line, words, 12, room=730)


def main():
    """Draws the picture."""
    picture = Picture(1080, 794)
    picture.text(16, 30, "One append: engine.write(rt, &mut batch, true)", 15, bold=True)
    picture.text(628, 30, "Blue: what holds after it returns Ok.", 12, BLUE)
    picture.text(872, 30, "Red: after it fails.", 12, RED)
    first = "The record is made first, and memtables get room (IsReadyFor)."
    picture.text(WRITE[0], 58, first, 12, GREY, room=WRITE[1])
    picture.text(628, 58, "After one sync, this batch and all before it are durable.", 12, GREY, room=SYNC[1])
    y, sync_from = 70, 0
    for at, row in enumerate(ROWS):
        next_y = draw_row(picture, y, row)
        if row[4]:
            sync_from = next_y - GAP
        if at + 1 < len(ROWS):
            draw_arrows(picture, next_y - GAP, next_y, sync_from if ROWS[at + 1][4] else 0)
        y = next_y
    draw_crash(picture, y)
    picture.text(WRITE[0], y + 108, "Grey: the laws by which a row follows from the one below.", 12, GREY)
    picture.save("append.svg")


main()
