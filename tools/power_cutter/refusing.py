"""Refuses each call of a run in turn, and asks what was answered, and what stands at the next start."""
import errno
import time
from collections import Counter
from random import Random

from disk import Disk, read_tree
from image import image
from running import Fault
from trace import fell

KINDS = [
    f"refuse {{}} {errno.EIO}",
    f"refuse {{}} {errno.ENOSPC}",
    f"part {{}} {errno.ENOSPC}",
    f"made {{}} {errno.EIO}",
    f"gone {{}} {errno.EIO}",
    f"gone {{}} {errno.ENOSPC}",
    "short {} 0",
]


class Refuser:
    """Plays one run over and over, with a fault at each of its calls."""

    def __init__(self, room, random, settings, count, end):
        self.room, self.random, self.settings, self.count, self.end = room, random, settings, count, end
        self.counts = Counter()
        self.wrong = []

    def run(self, name, seed):
        """Plays a run from a fresh directory, and another one over what a cut leaves of that, with each fault."""
        self.room.use_settings(self.settings(Random(seed)))
        tree, before = {}, [self.room.subject.fresh()]
        for part in ("first", "second"):
            plain = self.watched(tree, before, seed, "none")
            self.counts["calls of runs"] += sum(note.call not in ("told", "closed", "copied") for note in plain.notes)
            for kind in KINDS:
                self.sweep(f"{name}, {part}", kind, tree, before, seed)
            tree, before = self.cut_once(plain, tree)

    def watched(self, tree, before, seed, fault):
        """A run over a tree, always with the same events."""
        return self.room.watched(self.room.root("live", tree), before, Random(seed), self.count, fault)

    def cut_once(self, ran, tree):
        """What a cut in the second half of a run leaves."""
        disk = Disk(f"{self.room.path}/live", tree)
        point = self.random.randrange(len(ran.notes) // 2, len(ran.notes))
        for note in ran.notes[: point + 1]:
            disk.take(note)
        return image(disk, self.random, "front"), ran.candidates(ran.counts[point + 1])

    def sweep(self, name, kind, tree, before, seed):
        """Plays a run with a fault of a kind at each call, until none falls any more."""
        number = 0
        while time.time() < self.end:
            number += 1
            fault = kind.format(number)
            try:
                ran = self.watched(tree, before, seed, fault)
                if not fell(ran.notes):
                    return
                self.counts["faults"] += 1
                self.judge(ran, fault)
                self.reopen(ran, tree)
            except Fault as wrong:
                self.wrong.append(f"{name}, {fault}: {wrong}")

    def judge(self, ran, fault):
        """A run in which a fault fell says so, or it fell where nothing more was to be told."""
        heard = ran.heard
        if fault.startswith("short"):
            kinds = [note.call for note in ran.notes]
            self.counts["short writes"] += kinds[kinds.index("fell") + 1 :][:1] == ["written"]
            if heard is None or ran.status != 0 or heard.is_cut or heard.answered() < len(heard.events) or heard.refused_places:
                raise Fault(f"a short write isn't gone on with: status {ran.status}")
            return
        if heard is None:
            self.counts["runs that end before the voters are shown"] += 1
            if ran.status != 1:
                raise Fault(f"status {ran.status} of a run that ends before it shows what stands")
            return
        self.counts["rounds cut off"] += heard.is_cut
        self.counts["purges refused"] += heard.refused_purges > 0
        self.counts["places refused"] += heard.refused_places > 0
        is_told = heard.is_cut or heard.refused_purges or heard.refused_places
        is_told = is_told or self.room.subject.ends_at_a_refusal and ran.status == 1
        if not is_told and heard.answered() < len(heard.events):
            raise Fault(f"it ends behind {heard.answered()} of {len(heard.events)} events without a word, status {ran.status}")
        if not is_told:
            self.counts["faults of which nothing was told, as all was answered"] += 1
        elif ran.status != 1:
            self.counts["faults behind which it went on"] += 1
            if heard.is_cut or heard.answered() < len(heard.events):
                raise Fault(f"status {ran.status} of a run that was cut off")

    def reopen(self, ran, tree):
        """What stands at a start behind a fault, as it lies there and behind a power cut."""
        candidates = ran.candidates(len(ran.told))
        disk = Disk(f"{self.room.path}/live", tree)
        for note in ran.notes:
            disk.take(note)
        left = [read_tree(disk.root), image(disk, self.random, "lost"), image(disk, self.random)]
        for number, each in enumerate(left):
            if each in left[:number]:
                continue
            self.counts["openings behind a fault"] += 1
            self.room.found(self.room.root("image", each), candidates)
