#!/usr/bin/env python3
"""tools/pictures/layers.py [--check]: draws docs/pictures/layers.svg, the columns and layers of crates; with `--check` it
writes nothing, and fails if the picture that is there differs from what it would draw.

Each library and program of crates.txt is in one box, except the crates of tests. It fails if one is missing or drawn
twice, if crates.txt lacks a drawn name, and if a crate uses one of a box that begins higher.
"""
import os
import sys

from shapes import BLUE, GREY, INK, ROOT, Picture, width_of

WIDTH, HEIGHT = 1080, 898
# sizes of type, and how far apart lines are
TITLE, WORDS, CRATE, STEP = 14, 11.5, 12, 17
# x, y, width, height, fill, title, what it is, prefix of the crates' names, these, what crates above cite
BOXES = [
    (16, 48, 430, 86, "#ffffff", "Sessions", "session text in, judged transcript out", "",
     ["raftlog", "raftvoters", "raftvoters_timeline", "raft_voter_program"], ""),
    (454, 48, 256, 86, "#ffffff", "A node", "voters over a real directory", "",
     ["raftnode", "raft_voter_node"], ""),
    (718, 48, 346, 86, "#ffffff", "Proved callers", "short examples, with contracts", "raft_",
     ["examples", "crash_examples", "log_file_uses", "shared_examples", "log_shared_examples"], ""),
    (16, 142, 694, 86, "#f6e3f0", "World", "events on a store and its disk; threads that share a store", "raft_voter_",
     ["world", "session", "timeline", "log", "shared", "shared_log", "rounds", "history"], "run_world, openings_are_explained"),
    (16, 236, 694, 86, "#fbe4e4", "Store", "the voters of many groups on one log; one sync a round", "raft_voter_",
     ["store", "recovery", "durability_laws", "records"], "RoundIsAnswered, CutsRoundOff"),
    (718, 142, 346, 180, "#ffffff", "Programs on a log", "over an engine, in memory or in a directory", "raft_log_",
     [("ctl", "dump, check, fork, purge .."), ("operator", "its library"), ("command_line", "its words"),
      ("examples", "a key, lines, a Raft node's storage"), ("world_engine", "the engine in world's runs"),
      ("session", "texts of sessions"), ("run_laws", "a law on quiet runs")], ""),
    (16, 330, 180, 434, "#ece6f8", "Voter", "the receiver of Raft", "raft_",
     ["voter", "voter_outline", "voter_messages", "voter_plain", "voter_group_laws"], "Voter::step, judge, one_vote_per_term,"
     " terms_never_fall, matched_entries_stand, repeat_is_idempotent, group_isolation"),
    (204, 330, 652, 86, "#dbe9fb", "Engine", "write, sync, read, purge, close", "raft_log_",
     ["engine", "engine_core", "engine_os", "shared"], "LogEngine::write, LogEngine::purge_expired_files"),
    (204, 424, 276, 103, "#e4f0fd", "Purge", "copies what is live, then deletes files", "raft_log_",
     ["purge", "purge_steps", "purge_policy", "purge_copy"], "PurgesAndCounts"),
    (488, 424, 368, 103, "#e4f0fd", "Open", "recovers files; checks and forks logs", "raft_log_",
     ["recovery_scan", "recovery_read", "recovery", "open", "recovery_laws", "offline", "inspection"],
     "OpensDirectory, crashed_engines_open"),
    (204, 535, 652, 86, "#eef5fd", "Laws of an engine", "which map an engine represents, and what each call does to it",
     "raft_log_", ["engine_laws"], "Represents, IsRecoverableAs, WritesBytes"),
    (204, 629, 276, 135, "#e2f4ee", "Tables", "where entries and values are", "raft_log_",
     ["extents", "memtable_index", "memtable", "memtables", "replay", "replay_context", "tables"],
     "IsReadyFor, replay_segments"),
    (488, 629, 368, 135, "#e3f1f7", "Files of a log", "two queues: append, sync, rotate, delete", "raft_log_",
     ["file_format", "file_settings", "file_writer", "file_reader", "active_file", "file_pipe", "dual_pipes",
      "block_cache", "file_listeners", "files"], "PipeLog"),
    (864, 330, 200, 434, "#fdebd8", "Directories", "real files", "raft_log_",
     ["fs_os", "fs_traced", "directory_copies"], "DirectoryFileSystem"),
    (16, 772, 180, 118, "#f3f0fa", "Lists", "seen as their elements", "", ["raft_lists"], "Items"),
    (204, 772, 216, 118, "#fdf5d7", "Meaning", "no file, no byte", "raft_log_",
     ["model_laws", "machine_laws", "world", "judge"], "IsAt, run_log, judge_log"),
    (428, 772, 262, 118, "#e5f5e0", "Records", "bytes of batches", "raft_log_",
     ["record_checksum", "record_base", "record_items", "record_frames", "record_batches", "records"],
     "records_are_read_back"),
    (698, 772, 366, 118, "#eaeef2", "File systems", "calls, crash images; one in memory", "raft_log_",
     ["fs", "fs_state", "fs_memory"], "FileSystem, IsImage"),
]
# how the names of crates end that are in no box
TESTS = "_tests"
# words outside the boxes' own lines: x, y, colour, lines
NOTES = [
    (874, 448, GREY, ["An open locks the", "directory until the file", "system is dropped."]),
    (880, 684, INK, ["Trusted: the operating", "system keeps what it", "synced. Details are on", "the page of fs_os."]),
]


def draw_box(picture, box):
    """A box with its title, what it is, its crates and what is cited of it."""
    x, y, w, h, fill, title, what, prefix, names, cited = box
    picture.box(x, y, w, h, fill)
    picture.text(x + 10, y + 20, title, TITLE, bold=True, room=w - 20)
    if prefix:
        room = w - 26 - width_of(title, TITLE, bold=True)
        picture.text(x + w - 10, y + 19, prefix + "..", 10.5, GREY, name="front", room=room, end=True)
    picture.text(x + 10, y + 38, what, WORDS, GREY, room=w - 20)
    at = y + 58
    if isinstance(names[0], tuple):
        for name, words in names:
            picture.text(x + 10, at, name, CRATE, name="crate")
            picture.text(x + 112, at, words, WORDS, GREY, room=w - 122)
            at += STEP
    else:
        at = picture.names(x + 10, at, names, w - 20, CRATE, step=STEP, kind="crate")
    if cited:
        at = picture.names(x + 10, at + 1, cited.split(", "), w - 20, 11.5, BLUE, step=STEP)
    if at - STEP + 5 > y + h:
        raise SystemExit(f"no room in '{title}'")


def draw(boxes):
    """The whole picture."""
    picture = Picture(WIDTH, HEIGHT + 84)
    picture.text(16, 30, "The crates: a box uses those below and beside it, none above", 15, bold=True)
    for box in boxes:
        draw_box(picture, box)
    picture.box(872, 662, 184, 94, "#ffffff")
    for x, y, ink, lines in NOTES:
        for line, words in enumerate(lines):
            picture.text(x, y + STEP * line, words, WORDS, ink, room=1056 - x)
    at = HEIGHT + 18
    picture.text(16, at, "Black: the crates. A box names the front of their names in its corner.", WORDS, room=1048)
    picture.text(16, at + STEP, "Blue: the main types, calls, contracts and laws of a box.", WORDS, BLUE, room=1048)
    faces = "The crates records, tables, files and engine of raft_log_.. only re-export crates below them."
    picture.text(16, at + 2 * STEP, faces, WORDS, GREY, room=1048)
    picture.text(16, at + 3 * STEP, "Not drawn: crates of tests, and those of cases/list.txt.", WORDS, GREY, room=1048)
    return picture


def listed():
    """The crates of crates.txt, each with those that it uses."""
    with open(os.path.join(ROOT, "crates.txt"), encoding="utf-8") as lines:
        heads = [line.partition(":") for line in lines if ":" in line and line[0] != "#"]
    return {head.split()[0]: rest.split() for head, _, rest in heads}


def check_boxes(boxes, crates):
    """Fails unless the boxes have the crates of the list, each once, and none uses one of a box that begins higher."""
    drawn = [(box[7] + (name if isinstance(name, str) else name[0]), box[1]) for box in boxes for name in box[8]]
    tops = dict(drawn)
    names = [name for name, _ in drawn]
    wrong = [f"not in crates.txt: {name}" for name in sorted(set(names) - set(crates))]
    wrong += [f"in two boxes: {name}" for name in sorted(set(names)) if names.count(name) > 1]
    wrong += [f"in no box: {name}" for name in sorted(set(crates) - set(names)) if not name.endswith(TESTS)]
    wrong += [f"drawn as a crate of tests: {name}" for name in sorted(set(names)) if name.endswith(TESTS)]
    wrong += [f"{name} uses {used}, which is drawn above it" for name in sorted(set(names) & set(crates)) for used in crates[name] if used in tops and tops[used] < tops[name]]
    if wrong:
        raise SystemExit("\n".join(wrong))


def main():
    """Draws the picture, or checks the one that is there."""
    check_boxes(BOXES, listed())
    picture = draw(BOXES)
    if sys.argv[1:] == ["--check"]:
        if not picture.is_saved("layers.svg"):
            raise SystemExit("docs/pictures/layers.svg differs from what tools/pictures/layers.py draws: run it")
    elif sys.argv[1:]:
        raise SystemExit("usage: tools/pictures/layers.py [--check]")
    else:
        picture.save("layers.svg")


main()
