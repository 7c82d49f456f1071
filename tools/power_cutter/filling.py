"""Fills the file system below a program's directory, and asks what was answered, what stands, and whether it goes on.

The directory is a tmpfs of a fixed size, of which a ballast leaves only some bytes. So a disk becomes full at any moment of a
run. The ballast goes while the program still runs, or after it ended. In some runs a second directory has a tmpfs of its own.
"""
import os
import subprocess
from collections import Counter

from running import Ended, Fault

SIZE = 64 << 20
# a page: less than that can't be left
STEP = 4096
# the size of a directory's reserve
RESERVE = 256 << 10
# how many sizes there are, half of them below that of a reserve; the greatest has so many pages
SIZES = 50
MOST_PAGES = 2048
# the reply to a purge whose log failed
LOG_FAILED = b"purge failed: Failed\n"
# the group that takes long entries, which the plans don't ask at first, and how long those of one append are
LONG_GROUP = 9
LONG = [[20000], [60000], [50000, 50000, 50000]]


class Filler:
    """Runs a program with little space left, again and again."""

    def __init__(self, room, random, settings, count, operator):
        self.room, self.random, self.settings, self.count, self.operator = room, random, settings, count, operator
        self.counts = Counter()
        self.wrong = []
        self.started = []
        self.has_reserve = self.spills = False

    def size(self, number):
        """Tries one size: a run that fills the disk, a purge and opens on the full disk, and a run with space again."""
        left = STEP * pages(number % SIZES)
        usual = self.random.random() < 0.5
        self.spills = number % 5 == 4
        self.room.use_settings(self.settings_text(usual))
        root = self.room.root("full", {})
        mounts = [root, f"{root}/spill"] if self.spills else [root]
        makes_reserve = self.spills or self.random.random() < 0.5
        try:
            for path in mounts:
                os.makedirs(path, exist_ok=True)
                subprocess.run(["mount", "-t", "tmpfs", "-o", f"size={SIZE}", "tmpfs", path], check=True)
            if makes_reserve:
                self.make_reserve(root)
            self.life(root, left)
        except Fault as wrong:
            with_what = f"{', the usual settings' if usual else ''}{', a second directory' if self.spills else ''}"
            self.wrong.append(f"size {number}, {left} bytes left{with_what}: {wrong}")
        finally:
            self.end()
            for path in reversed(mounts):
                if os.path.ismount(path):
                    subprocess.run(["umount", path], check=True)
        self.counts["sizes"] += 1

    def settings_text(self, usual):
        """The settings of a run. With a second directory nothing is filled ahead, as such files would take the records."""
        text = "" if usual else self.settings(self.random)
        if not self.spills:
            return text
        lines = [line for line in text.splitlines() if not line.startswith(("spill-dir", "prefill"))]
        return "".join(line + "\n" for line in lines + ['spill-dir = "spill"'])

    def start(self, root):
        """Starts the program in a root."""
        running = self.room.start(root)
        self.started.append(running)
        return running

    def end(self):
        """Ends the programs that still run: a fault leaves one, and none may stay where the root is unmounted."""
        for running in self.started:
            running.process.kill()
            running.process.wait()
        self.started = []

    def make_reserve(self, root):
        """Opens and closes the log while there is space, so that its directory has a reserve."""
        running = self.start(root)
        running.close_input()
        status = running.hear_all()
        if status != 0 or not is_reserve_whole(root):
            raise Fault(f"no reserve was made: status {status}: {running.complaint()[-300:]!r}")
        self.counts["logs closed with a reserve, before the disk was full"] += 1

    def life(self, root, left):
        """Three runs over one directory, and a purge by the operator's program."""
        ballast(root, left)
        before = self.fill(root, [self.room.subject.fresh()], left)
        self.open_full(root, before)
        self.purge_full(root, before)
        os.remove(f"{root}/ballast")
        before = [self.room.found_state(root, before)]
        ran = self.start(root)
        heard, status = self.room.serve(ran, before, self.random, self.count, "none", ())
        self.room.demand_all(heard, status, "none")
        self.room.found(root, heard.candidates(len(ran.told)))

    def fill(self, root, before, left):
        """A run that finds no space, and half of whose events come after there is space again: what may stand after it."""
        subject = self.room.subject
        could_fail = not is_reserve_whole(root)
        running = self.start(root)
        try:
            state, shown = subject.opens(running)
        except Ended as ended:
            if ended.status != 1 or not could_fail:
                raise
            self.counts["first opens without a reserve that failed"] += 1
            return before
        self.has_reserve = is_reserve_whole(root)
        self.counts["runs with a reserve"] += self.has_reserve
        first = self.events(state, left)
        running.feed(subject.text(first))
        wanted = sum(subject.answer_lines(event) for event in first)
        running.hear_until(lambda told: told.count(b"\n") >= self.lines_before(running, shown) + wanted or b" cut\n" in told)
        heard = subject.hear(state, shown + first, running.told, may_refuse=True)
        self.counts["refused requests"] += heard.refused_places
        self.counts["refused purges"] += heard.refused_purges
        if heard.is_cut or heard.answered() < len(shown) + len(first) or running.told.endswith(LOG_FAILED):
            running.close_input()
            self.note_failure(root, running, running.hear_all())
            return heard.candidates(len(running.told))
        self.counts["runs that met no full disk"] += b"no space left in" not in warned(running)
        return self.go_on(root, running, heard, shown + first, state)

    def events(self, state, left):
        """The events that fill the disk. Rounds with long entries are among them in half of the runs, and if much is left."""
        plan = self.room.subject.plan(self.random, state, self.count)
        longs = []
        if left >= RESERVE or self.spills or self.random.random() < 0.5:
            longs = long_rounds(self.random, left)
        events = []
        while plan or longs:
            several = self.random.random() * (len(plan) + len(longs)) < len(plan)
            events.append((plan if several else longs).pop(0))
        return events

    def note_failure(self, root, running, status):
        """The log failed. That is wrong if its directory has a reserve, as only a used-up reserve leaves no room for a header."""
        if status != 1 or self.spills or is_reserve_whole(root):
            what = "a second directory" if self.spills else "a reserve"
            raise Fault(f"the log failed, with {what}: status {status}: {running.complaint()[-600:]!r}")
        self.counts[f"runs whose log failed, its reserve {'used up' if self.has_reserve else 'missing at the open'}"] += 1

    def lines_before(self, running, shown):
        """How many lines came before the answers of the plan."""
        listed = running.told.split(b"ready\n", 1)[0].count(b"\n") + 1
        return listed + sum(self.room.subject.answer_lines(event) for event in shown)

    def go_on(self, root, running, heard, events, state):
        """Goes on in the same process, at times with space again: then nothing more is refused."""
        subject = self.room.subject
        frees = self.random.random() < 0.5
        if frees:
            os.remove(f"{root}/ballast")
        more = subject.plan(self.random, heard.worlds[-1], self.count // 2)
        running.feed(subject.text(more), closes=True)
        status = running.hear_all()
        both = subject.hear(state, events + more, running.told, may_refuse=True)
        if frees:
            self.counts["runs that got space"] += 1
            if status != 0 or both.is_cut or both.refused_places > heard.refused_places or both.refused_purges > heard.refused_purges:
                raise Fault(f"with space again it doesn't serve: status {status}: {running.complaint()[-300:]!r}")
            ballast(root, STEP)
        elif status != 0:
            self.note_failure(root, running, status)
        elif both.answered() < len(events + more):
            raise Fault(f"{both.answered()} of {len(events + more)} events are answered")
        if self.spills:
            self.demand_spilled(root, running, both)
        return both.candidates(len(running.told))

    def demand_spilled(self, root, running, heard):
        """A log with room in its second directory refused no request. It has files there, if it needed a new file at all."""
        if heard.refused_places:
            raise Fault(f"{heard.refused_places} requests are refused: {running.complaint()[-600:]!r}")
        needed = bool(log_files(f"{root}/spill"))
        self.counts[f"runs with room in a second directory, which they {'needed' if needed else 'did not need'}"] += 1
        self.counts["purges refused with room in a second directory"] += heard.refused_purges

    def open_full(self, root, before):
        """Opens the log on the full disk. That may fail if its directory has no reserve."""
        had_reserve = is_reserve_whole(root)
        if self.opens(root, before):
            self.counts["opens on a full disk"] += 1
        elif had_reserve:
            raise Fault("with a reserve it doesn't open on the full disk")
        else:
            self.counts["opens on a full disk without a reserve that failed"] += 1

    def purge_full(self, root, before):
        """Purges the log on the full disk by the operator's program. It may fail for lack of space; else the log opens."""
        if not log_files(f"{root}/log"):
            return
        free = free_bytes(root)
        spill = ["--spill-dir", f"{root}/spill"] if os.path.isdir(f"{root}/spill") else []
        if spill and os.path.getsize(f"{root}/log/LOCK"):
            self.purge_alone(root)
        ran = subprocess.run([*self.operator, "purge", f"{root}/log", *spill], capture_output=True, timeout=60)
        said = ran.stderr.decode()
        freed = free_bytes(root) - free
        if ran.returncode not in (0, 3) or ran.returncode == 3 and "o space left" not in said:
            raise Fault(f"the purge ends with status {ran.returncode}: {said[-600:]!r}")
        self.counts[f"purges of a closed log on a full disk that ended with status {ran.returncode}"] += 1
        self.counts["purges of a closed log that freed bytes"] += freed > 0
        self.counts["bytes freed by purges of a closed log"] += freed
        if self.opens(root, before):
            self.counts["opens on a full disk, after a purge"] += 1
        elif ran.returncode == 0 or is_reserve_whole(root):
            raise Fault("after a purge it doesn't open on the full disk")

    def purge_alone(self, root):
        """Asks for a purge without the second directory, which the main one notes. It fails."""
        ran = subprocess.run([*self.operator, "purge", f"{root}/log"], capture_output=True, timeout=60)
        if ran.returncode != 3 or "has a second directory" not in ran.stderr.decode():
            raise Fault(f"a purge without the second directory ends with status {ran.returncode}: {ran.stderr[-600:]!r}")
        self.counts["purges without the second directory, which failed"] += 1

    def opens(self, root, before):
        """Whether the program opens on the full disk; if so it shows what may stand."""
        try:
            self.room.found(root, before)
            return True
        except Ended as ended:
            if ended.status != 1:
                raise
            return False


def pages(place):
    """How many pages are left in a size: from one on, below a reserve in one half of the sizes, up to the greatest in the other."""
    half, reserve = SIZES // 2, RESERVE // STEP
    if place < half:
        return 1 + place * (reserve - 1) // half
    return reserve + (place - half) * (MOST_PAGES - reserve) // (SIZES - half - 1)


def long_rounds(random, left):
    """Rounds that each append long entries to a group of their own, with more bytes in all than are left."""
    rounds, taken, last = [], 0, 0
    while taken <= left:
        sizes = random.choice(LONG)
        entries = [f"1:{random.randbytes(size).hex()}" for size in sizes]
        rounds.append(("round", [["append", str(LONG_GROUP), "1", str(last), str(min(last, 1)), str(last), *entries]]))
        taken, last = taken + sum(sizes), last + len(sizes)
    return rounds


def warned(running):
    """What a program that still runs wrote to its standard error; its place there doesn't move."""
    return os.pread(running.complaints.fileno(), 1 << 20, 0)


def is_reserve_whole(root):
    """Whether the log's directory has its reserve."""
    path = f"{root}/log/RESERVE"
    return os.path.isfile(path) and os.path.getsize(path) == RESERVE


def log_files(directory):
    """The files of both queues in a directory."""
    if not os.path.isdir(directory):
        return []
    return [name for name in os.listdir(directory) if name.endswith((".raftlog", ".rewrite"))]


def free_bytes(root):
    """How many bytes are free below a root."""
    found = os.statvfs(root)
    return found.f_bavail * found.f_frsize


def ballast(root, left):
    """Takes all space below a root but so many bytes."""
    taken = max(free_bytes(root) - left, 0)
    with open(f"{root}/ballast", "wb") as file:
        os.posix_fallocate(file.fileno(), 0, max(taken, 1))
