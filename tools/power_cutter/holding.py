"""Counts what a program holds open while it serves, rotates, purges, closes and opens again, and while a log is copied.

From outside, by /proc, at each moment at which all that was asked is answered; and by its trace, behind each call.
"""
import os
import time
from collections import Counter

from cutting import kind_of
from disk import Disk, Directory, read_tree
from running import Ended, Fault, Running, Watch
from trace import read_trace

# How long a descriptor may stay that a moment finds wrong, in seconds: a thread may be about to close it.
PATIENCE = 2
# How many more than there are files and directories may be held behind a call: as a directory while it is synced.
MORE = 2
# How many of them may lead to what is gone: it is let go right behind its deletion.
GONE = 1


class Holder:
    """Plays lives of a program over a directory, each of several runs, and copies what they leave."""

    def __init__(self, room, random, settings, operator=None):
        self.room, self.random, self.settings, self.operator = room, random, settings, operator
        self.counts = Counter()
        self.wrong = []

    def life(self, name, runs, count):
        """Plays runs over a new directory, each closed or killed, and copies the log in the end."""
        self.room.use_settings(self.settings(self.random))
        root, before = self.room.root("live", {}), [self.room.subject.fresh()]
        for number in range(runs):
            try:
                before = self.run(root, before, count)
            except Fault as wrong:
                self.wrong.append(f"{name}, run {number}: {wrong}")
                return
        if self.operator and os.path.isdir(f"{root}/log") and not os.path.isdir(f"{root}/spill"):
            try:
                self.copy(root)
            except Fault as wrong:
                self.wrong.append(f"{name}, its copy: {wrong}")

    def run(self, root, before, count):
        """Plays a run, and looks at what is held behind each answer; the states that may stand behind it."""
        tree, subject = read_tree(root), self.room.subject
        running = self.room.start(root, self.watch(root))
        try:
            state, shown = subject.opens(running)
            self.room.place(state, before)
            plan = subject.plan(self.random, state, count)
            self.serve(running, root, plan)
            status = running.kill() if self.random.random() < 0.3 else self.closed(running)
        finally:
            running.process.kill()
            running.process.wait()
        heard = subject.hear(state, shown + plan, running.told)
        if status not in (0, -9) or heard.answered() < len(shown) + len(plan):
            raise Fault(f"status {status}, {heard.answered()} of {len(shown) + len(plan)} events are answered")
        self.counts["runs"] += 1
        self.counts["answers"] += heard.answered()
        self.follow(root, tree)
        return heard.candidates(len(running.told))

    def watch(self, root):
        """The library notes all calls below a root."""
        trace = f"{self.room.path}/trace"
        open(trace, "wb").close()
        return Watch(self.room.library, root, trace)

    def closed(self, running):
        """The status of a run whose input ends."""
        running.close_input()
        return running.hear_all()

    def serve(self, running, root, plan):
        """Asks one event behind another, and looks at what is held behind each answer."""
        others = len(self.moment(running, root, None))
        for event in plan:
            wanted = running.told.count(b"\n") + self.room.subject.answer_lines(event)
            running.feed(self.room.subject.text([event]))
            if not running.hear_until(lambda told, wanted=wanted: told.count(b"\n") >= wanted):
                raise Ended(running)
            self.moment(running, root, others)

    def moment(self, running, root, others):
        """Looks at what is held, until nothing is wrong with it or patience ends: what of it isn't below the root."""
        self.counts["moments"] += 1
        end = time.monotonic() + PATIENCE
        while True:
            held = links(running.process.pid)
            below = [link for link in held if link == root or link.startswith(root + "/")]
            outside = [link for link in held if link not in below]
            stand = paths(root)
            wrong = [link for link, times in Counter(below).items() if times > 1 or link not in stand]
            if not wrong and (others is None or len(outside) <= others):
                self.counts["moments at which each file and each directory of the log is held"] += set(below) == stand - {root}
                self.most("descriptors below the root at most", len(below))
                return outside
            if time.monotonic() > end:
                raise Fault(f"it holds {sorted(wrong)} in vain or twice, {len(below)} below, {len(outside)} elsewhere")
            time.sleep(0.01)

    def follow(self, root, tree):
        """Follows the trace of a run over a tree: what is held behind each call."""
        disk = Disk(root, tree)
        for note in read_trace(f"{self.room.path}/trace"):
            disk.take(note)
            self.judge(disk, note)
            if not note.error and note.call not in ("told", "closed", "copied", "written", "synced", "cut", "opened"):
                self.counts["calls: " + kind_of(note)] += 1

    def judge(self, disk, note):
        """As many descriptors are held as files and directories stand, and two more at most; one of what is gone."""
        self.counts["calls"] += 1
        stand = set(map(id, standing(disk.top)))
        held = len(disk.handles)
        gone = sum(id(each) not in stand for each in disk.handles.values())
        self.most("descriptors of what is gone at most", gone)
        self.most("descriptors more than files and directories at most", held - len(stand) + 1)
        if held >= len(stand) + MORE or gone > GONE:
            raise Fault(f"behind {note} it holds {held} of {len(stand) - 1} files and directories, {gone} of what is gone")

    def most(self, name, number):
        """Keeps the greatest number."""
        self.counts[name] = max(self.counts[name], number)

    def copy(self, root):
        """Copies a log, and follows what is held."""
        tree = read_tree(root)
        running = Running(self.operator + ["fork", "log", "copy"], root, self.watch(root))
        status = self.closed(running)
        if status != 0:
            raise Fault(f"status {status}: {running.complaint()[-300:]!r}")
        self.counts["copies"] += 1
        self.follow(root, tree)


def links(process):
    """What each descriptor of a process leads to."""
    found = []
    for name in os.listdir(f"/proc/{process}/fd"):
        try:
            found.append(os.readlink(f"/proc/{process}/fd/{name}"))
        except FileNotFoundError:
            pass
    return found


def paths(root):
    """The paths of all files and directories from a root on."""
    found = {root}
    for home, directories, files in os.walk(root):
        found |= {f"{home}/{name}" for name in directories + files}
    return found


def standing(directory):
    """A directory of a disk, and all that stands below it."""
    yield directory
    for each in directory.names.values():
        yield from standing(each) if isinstance(each, Directory) else [each]
