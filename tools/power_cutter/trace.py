"""Reads what the preloaded library (preload.c) noted: the calls of a program that changed files, and what it told by then."""
import struct

HEAD = struct.Struct("<IiqqqII")
CALLS = [
    "", "opened", "closed", "copied", "written", "cut", "synced", "renamed", "unlinked", "made directory",
    "removed directory", "told", "other", "fell",
]  # fmt: skip


class Note:
    """A call: its kind, the error that it was answered with or 0, a file's handle, a place, and two byte strings."""

    __slots__ = ("call", "error", "file", "at", "first", "second")

    def __init__(self, call, error, file, at, first, second):
        self.call, self.error, self.file, self.at, self.first, self.second = call, error, file, at, first, second

    def __repr__(self):
        shown = self.first if len(self.first) < 60 else self.first[:60] + b".."
        return f"{self.call} {self.file} at {self.at}: {shown!r} {self.second!r}" + (f" error {self.error}" if self.error else "")


def read_trace(path):
    """The notes of a trace. A last one that a kill cut short is left out."""
    with open(path, "rb") as file:
        bytes_ = file.read()
    notes, at = [], 0
    while at + HEAD.size <= len(bytes_):
        call, error, file, place, _size, first, second = HEAD.unpack_from(bytes_, at)
        at += HEAD.size
        if at + first + second > len(bytes_):
            break
        notes.append(Note(CALLS[call], error, file, place, bytes_[at : at + first], bytes_[at + first : at + first + second]))
        at += first + second
    return notes


def told_by(notes):
    """What the program told by each note of a trace, as counts of bytes, and all that it told."""
    counts, told = [0], b""
    for note in notes:
        if note.call == "told":
            told += note.first
        counts.append(len(told))
    return counts, told


def fell(notes):
    """Whether the fault that was asked for fell."""
    return any(note.call == "fell" for note in notes)
