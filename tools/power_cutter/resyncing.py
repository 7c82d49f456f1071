"""Fails each sync of a run in turn, starts the program again in the same boot, and then cuts the power.

The files stay as they are, as the page cache does; on the medium is what the disk of disk.py keeps behind a sync that failed.
"""
import errno
import time
from copy import deepcopy
from random import Random

from cutting import Cutter
from disk import Disk, read_tree
from image import WAYS, left_of
from refusing import Refuser
from running import Fault
from trace import fell

ERRORS = [errno.EIO, errno.ENOSPC]
# How often a sync that failed left nothing of its changes on the medium, to one time that it left some.
NOTHING = 2
CALLS_OF_AN_OPENING = 60


class Boot:
    """One boot of a machine: the files as a read gives them, the disk below, the states that may stand, and what is asked again."""

    def __init__(self, tree, disk, states, again):
        self.tree, self.disk, self.states, self.again = tree, disk, states, again


class Resyncer(Refuser):
    """Plays one run over and over, with an error at each of its syncs, and a second one behind it."""

    def __init__(self, room, random, settings, count, points, end, sticks=False):
        super().__init__(room, random, settings, count, end)
        self.sticks = sticks
        self.cutter = Cutter(room, random, settings, points)
        self.cutter.counts, self.cutter.wrong = self.counts, self.wrong

    def run(self, name, seed):
        """Plays a run from a fresh directory, and another one over what a cut leaves of that, with each sync failing."""
        self.room.use_settings(self.settings(Random(seed)))
        tree, before = {}, [self.room.subject.fresh()]
        for part in ("first", "second"):
            plain = self.watched(tree, before, seed, "none")
            self.counts["syncs of runs"] += sum(note.call == "synced" for note in plain.notes)
            for error in ERRORS:
                self.sweep_syncs(f"{name}, {part}", error, tree, before, seed)
            tree, before = self.cut_once(plain, tree)

    def sweep_syncs(self, name, error, tree, before, seed):
        """Plays a run with an error at each sync, and the same boot on from each."""
        number = 0
        while time.time() < self.end:
            number += 1
            fault = f"refuse-sync {number} {error}"
            disk = Disk(f"{self.room.path}/live", tree, lose=self.left, sticks=self.sticks)
            try:
                boot = self.life(Boot(tree, disk, before, []), self.count, fault, Random(seed))
                if boot is None:
                    return
                self.go_on(f"{name}, {fault}", boot)
            except Fault as wrong:
                self.wrong.append(f"{name}, {fault}: {wrong}")

    def left(self, file):
        """What a sync that failed leaves of a file on the medium."""
        return left_of(file, self.random, self.random.choice(["lost"] * NOTHING * len(WAYS) + WAYS))

    def life(self, boot, count, fault, random):
        """A life with an error at a sync, or killed: the boot as it is behind it, or None where the run has no such sync."""
        root = self.room.root("live", boot.tree)
        ran = self.room.watched(root, boot.states, random, count, fault, boot.again)
        if fault.startswith("refuse"):
            if not fell(ran.notes):
                return None
            self.counts["faults"] += 1
            self.judge(ran, fault)
        for note in ran.notes:
            boot.disk.take(note)
        boot.disk.forget_handles()
        return Boot(read_tree(root), boot.disk, ran.candidates(len(ran.told)), asked_again(ran.heard))

    def go_on(self, name, boot):
        """Starts the program again in the same boot: without an error, killed, and with an error at each sync of a short run."""
        self.counts["rounds asked again"] += len(boot.again)
        self.last_life(f"{name}, started again", boot, self.count)
        fault = f"kill {self.random.randint(1, CALLS_OF_AN_OPENING)}"
        killed = self.life(deepcopy(boot), 1, fault, self.random)
        self.last_life(f"{name}, {fault}, started again", killed, 2)
        number = 0
        while time.time() < self.end:
            number += 1
            fault = f"refuse-sync {number} {ERRORS[number % 2]}"
            try:
                second = self.life(deepcopy(boot), 1, fault, self.random)
                if second is None:
                    return
                self.counts["second errors"] += 1
                self.last_life(f"{name}, {fault}, started again", second, 2)
            except Fault as wrong:
                self.wrong.append(f"{name}, then {fault}: {wrong}")

    def last_life(self, name, boot, count):
        """A life without an error, and power cuts in it: nothing that any life of the boot answered is lost."""
        disk, root = deepcopy(boot.disk), self.room.root("live", boot.tree)
        ran = self.room.watched(root, boot.states, self.random, count, first=boot.again)
        self.counts["starts in the same boot"] += 1
        self.cutter.cut(name, ran, disk)


def asked_again(heard):
    """The last request of the round that was cut off, as one asks again who got no answer; nothing where none was."""
    if heard is None or not heard.is_cut:
        return []
    kind, requests = heard.events[heard.answered()]
    return [(kind, requests[-1:])]
