"""Cuts the power of a program at many points of a trace, and asks what stands behind each."""
import os
import zlib
from collections import Counter

from disk import Disk, read_tree
from file import File
from image import image
from running import Fault

MARKED = ("renamed", "unlinked", "cut", "made directory")


class Cutter:
    """Goes through histories: each is a row of runs, over what a cut or a kill left of the run before."""

    def __init__(self, room, random, settings, points, drops=()):
        self.room, self.random, self.settings, self.points, self.drops = room, random, settings, points, drops
        self.counts = Counter()
        self.wrong = []

    def history(self, name, runs=4, count=40):
        """Plays a history, with cuts in each of its runs."""
        subject, random = self.room.subject, self.random
        self.room.use_settings(self.settings(random))
        tree, before = {}, [subject.fresh()]
        root = self.room.root("live", tree)
        disk = Disk(root, tree, self.drops)
        for number in range(runs):
            kind = random.choice(["none", "none", "none", "kill", "kill-part", "kill-made", "kill-made"])
            fault = kind if kind == "none" else f"{kind} {random.randint(1, 3 * count)}"
            try:
                ran = self.room.watched(root, before, random, count, fault)
                disk.forget_handles()
                chosen = self.cut(f"{name}, run {number}", ran, disk)
            except Fault as wrong:
                self.wrong.append(f"{name}, run {number}, {fault}: {wrong}")
                return
            self.tell_trace(ran)
            if ran.status == -9:
                self.counts["runs that were killed, and gone on with"] += 1
                before = ran.candidates(len(ran.told))
                continue
            tree, before = chosen
            root = self.room.root("live", tree)
            disk = Disk(root, tree, self.drops)

    def tell_trace(self, ran):
        """Counts what a trace had."""
        self.counts["traces"] += 1
        for note in ran.notes:
            if not note.error and note.call not in ("told", "closed", "copied"):
                self.counts["calls: " + kind_of(note)] += 1
        self.counts["answers"] += ran.heard.answered() if ran.heard else 0

    def cut(self, name, ran, disk):
        """Cuts a run at chosen points; a tree that one of the cuts leaves, and what may stand there."""
        points = self.chosen(ran)
        kept, tried = (read_tree(disk.root), ran.candidates(len(ran.told))), set()
        last = self.random.choice(sorted(points)) if points else -1
        for number, note in enumerate(ran.notes):
            disk.take(note)
            if number not in points:
                continue
            told = ran.counts[number + 1]
            candidates, done = ran.candidates(told), ran.done(told)
            for way in [None, self.random.choice(["lost", "kept", None])]:
                tree = image(disk, self.random, way)
                self.try_image(f"{name}, behind call {number} ({note.call}), {way}", tree, done, candidates, tried)
            if number == last:
                kept = (image(disk, self.random), candidates)
            self.counts["points in an opening"] += done < 0
        if tree_differs(disk, read_tree(disk.root)):
            raise Fault("the disk that followed the trace isn't what lies there")
        return kept

    def chosen(self, ran):
        """The numbers of the calls behind which the power is cut: some at random, near changes of names, and behind an opening."""
        notes = ran.notes
        opening = [number for number in range(len(notes)) if ran.done(ran.counts[number + 1]) == 0]
        changes = [number for number, note in enumerate(notes) if note.call not in ("closed", "copied", "other", "fell")]
        marked = [each for number, note in enumerate(notes) if note.call in MARKED for each in (number - 1, number, number + 1, number + 2)]
        marked = sorted(set(marked) & set(changes))
        some = self.random.sample(marked, min(len(marked), self.points // 2))
        some += opening[:6]
        return set(some) | set(self.random.sample(changes, min(len(changes), max(self.points - len(some), 0))))

    def try_image(self, name, tree, done, candidates, tried):
        """Opens what a cut leaves."""
        mark = (zlib.crc32(repr(sorted(flat(tree))).encode()), done)
        if mark in tried:
            self.counts["cuts that leave what another one left"] += 1
            return
        tried.add(mark)
        self.counts["cuts"] += 1
        try:
            place = self.room.found(self.room.root("image", tree), candidates)
        except Fault as wrong:
            self.wrong.append(f"{name}: {wrong}")
            return
        if len(candidates) > 1:
            self.counts["cuts in a round"] += 1
            self.counts["cuts in a round of which something stands"] += place > 0


def kind_of(note):
    """A call, and what ends the names that it is about."""
    is_made = note.call == "opened" and note.at & os.O_CREAT
    if not is_made and note.call not in MARKED or note.call == "cut":
        return note.call
    ends = [path.decode().rsplit("/", 1)[-1].partition(".")[2] for path in (note.first, note.second) if path]
    return " ".join(["made" if is_made else note.call] + [" to ".join("." + end for end in ends)])


def flat(tree, front=""):
    """The paths of a tree, with the checksum of each file."""
    for name, content in tree.items():
        if isinstance(content, dict):
            yield front + name + "/", 0
            yield from flat(content, front + name + "/")
        else:
            yield front + name, zlib.crc32(content)


def tree_differs(disk, tree):
    """Whether a disk, read now, has other files than a tree."""
    return sorted(flat(now(disk.top))) != sorted(flat(tree))


def now(directory):
    """The tree of what a directory of a disk holds for who reads it now."""
    return {name: bytes(each.now) if isinstance(each, File) else now(each) for name, each in directory.names.items()}
