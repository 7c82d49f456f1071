"""Copies logs by `raft_log_ctl fork`, with power cuts in it and with each of its calls refused, and asks what log and copy hold."""
import errno
from collections import Counter

from disk import Disk, read_tree
from image import image
from running import Fault, Running, Watch
from trace import fell, read_trace, told_by

KINDS = [
    f"refuse {{}} {errno.EIO}",
    f"refuse {{}} {errno.ENOSPC}",
    f"part {{}} {errno.ENOSPC}",
    f"made {{}} {errno.EIO}",
    f"gone {{}} {errno.EIO}",
    "short {} 0",
]
DONE, REFUSED = 0, 3


class Copied:
    """A copy that was asked for: its notes, its status, the tree behind it, and what it complained of."""

    def __init__(self, notes, status, tree, complaint):
        self.notes, self.status, self.tree, self.complaint = notes, status, tree, complaint
        self.counts, self.told = told_by(notes)


class Forker:
    """Leaves logs by runs that are closed, killed or cut off from power, and copies each."""

    def __init__(self, room, random, settings, count, operator):
        self.room, self.random, self.settings, self.count, self.operator = room, random, settings, count, operator
        self.counts = Counter()
        self.wrong = []

    def log(self, name):
        """Leaves a log, and copies it: as it is, with power cuts, and with each call refused."""
        lines = self.settings(self.random).split("\n")
        self.room.use_settings("\n".join(line for line in lines if "spill" not in line))
        try:
            tree, candidates = self.left()
            if not tree.get("log"):
                return
            place = self.room.found(self.room.root("image", tree), candidates)
            self.copy(tree, candidates[place])
        except Fault as wrong:
            self.wrong.append(f"{name}: {wrong}")

    def left(self):
        """A tree that a run leaves, closed, killed or cut, and the states that may stand there."""
        kind = self.random.choice(["none", "none", f"kill {self.random.randint(1, 3 * self.count)}"])
        root = self.room.root("live", {})
        ran = self.room.watched(root, [self.room.subject.fresh()], self.random, self.count, kind)
        if self.random.random() < 0.4 or not ran.notes:
            self.counts["logs that were closed or killed"] += 1
            return read_tree(root), ran.candidates(len(ran.told))
        self.counts["logs that were cut"] += 1
        disk = Disk(root, {})
        point = self.random.randrange(len(ran.notes) // 2, len(ran.notes))
        for note in ran.notes[: point + 1]:
            disk.take(note)
        return image(disk, self.random), ran.candidates(ran.counts[point + 1])

    def copied(self, tree, fault="none"):
        """Copies the log of a tree."""
        root, trace = self.room.root("live", tree), f"{self.room.path}/trace"
        open(trace, "wb").close()
        words = self.operator + ["fork", "log", "copy"]
        running = Running(words, root, Watch(self.room.library, root, trace, fault))
        running.close_input()
        status = running.hear_all()
        return Copied(read_trace(trace), status, read_tree(root), running.complaint())

    def copy(self, tree, state):
        """Copies a log in which a state stands, in every way."""
        plain = self.copied(tree)
        if plain.status != DONE:
            raise Fault(f"status {plain.status} of a copy without a fault: {plain.complaint[-300:]!r}")
        self.counts["copies"] += 1
        self.judge(plain, tree, state)
        self.cut(plain, tree, state)
        for kind in KINDS:
            self.sweep(kind, tree, state)

    def judge(self, copied, tree, state):
        """The log is as it was, and a copy that is done shows what the log shows."""
        self.demand_same(tree, copied.tree)
        if copied.status == DONE:
            self.demand_shown(copied.tree, state)

    def demand_same(self, tree, now):
        """Nothing of the log changed."""
        if now.get("log") != tree["log"]:
            raise Fault(f"the log's files changed: {sorted(tree['log'])} and {sorted(now.get('log', {}))}")

    def demand_shown(self, tree, state):
        """The copy opens as the log."""
        if "copy" not in tree:
            raise Fault("no copy is there")
        self.room.found(self.room.root("image", {"log": tree["copy"]}), [state])
        self.counts["openings of a copy"] += 1

    def cut(self, copied, tree, state):
        """Cuts the power behind each call of a copy: what is told is there, and the log is as it was."""
        disk, last = Disk(f"{self.room.path}/live", tree), len(copied.notes) - 1
        for number, note in enumerate(copied.notes):
            disk.take(note)
            if note.call in ("closed", "copied"):
                continue
            left = image(disk, self.random)
            self.counts["cuts"] += 1
            self.demand_same(tree, left)
            if number == last or 0 < len(copied.told) == copied.counts[number + 1]:
                self.demand_shown(left, state)

    def sweep(self, kind, tree, state):
        """Refuses each call of a copy, until none is left that could be."""
        number = 0
        while True:
            number += 1
            fault = kind.format(number)
            copied = self.copied(tree, fault)
            if not fell(copied.notes):
                return
            self.counts["faults"] += 1
            try:
                self.judge_refused(copied, fault, tree, state)
            except Fault as wrong:
                raise Fault(f"{fault}: {wrong}") from wrong

    def judge_refused(self, copied, fault, tree, state):
        """A fault is told, or it changed nothing of what is told; the log is as it was, behind a power cut too."""
        if copied.status not in (DONE, REFUSED):
            raise Fault(f"status {copied.status}: {copied.complaint[-300:]!r}")
        if fault.startswith("short") and copied.status != DONE:
            raise Fault(f"a short write isn't gone on with: {copied.complaint[-300:]!r}")
        self.counts["copies that were refused"] += copied.status == REFUSED
        self.judge(copied, tree, state)
        disk = Disk(f"{self.room.path}/live", tree)
        for note in copied.notes:
            disk.take(note)
        left = image(disk, self.random)
        self.demand_same(tree, left)
        if copied.status == DONE:
            self.demand_shown(left, state)
