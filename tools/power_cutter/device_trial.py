"""Runs a program over a real file system whose device fails for a moment, starts it again in the same boot, and cuts the power."""
import errno
import os
from collections import Counter

from resyncing import asked_again
from running import Ended, Fault
from voting_twice import TwiceVoter, vote

# No fault of the library's, but one that a run may tell of.
DEVICE = "device"


class DeviceTwiceVoter(TwiceVoter):
    """The five steps of voting_twice.py over a device, whose error is its own."""

    errors = [errno.EIO]

    def __init__(self, room, random, device):
        super().__init__(room, random)
        self.device = device

    def case(self, name, requests, _error):
        """The five steps once."""
        device, root = self.device, fresh_root(self.device)
        try:
            self.demand_cut(*self.life(root, requests, DEVICE, before_round=device.fail))
        finally:
            device.mend()
        self.demand_granted(*self.life(root, [vote(2)]))
        self.ask_second(f"{name}, on {device.kind}", f"{device.cut()}/live")


class DeviceTrial:
    """Plays histories over a device: a life in which it fails at a random moment, another one in the same boot, and a cut."""

    def __init__(self, room, random, settings, count, device):
        self.room, self.random, self.settings, self.count, self.device = room, random, settings, count, device
        self.counts = Counter()
        self.wrong = []

    def play(self, name):
        """A history."""
        self.counts["histories"] += 1
        # (by the usual settings files are seldom made: a name's sync that fails stops the file system)
        self.room.use_settings("" if self.random.random() < 0.7 else self.settings(self.random))
        try:
            self.history()
        except Fault as wrong:
            self.wrong.append(f"{name}: {wrong}")

    def history(self):
        """The device fails in the first life, and the second one is killed or closed."""
        root, random = fresh_root(self.device), self.random
        heard, states = self.failing(root)
        if not takes_files(root):
            self.counts["file systems that stopped"] += 1
        else:
            self.counts["starts in the same boot"] += 1
            again = asked_again(heard)
            self.counts["rounds asked again"] += len(again)
            kind = random.choice(["none", f"kill {random.randint(30, 60 + 3 * self.count)}"])
            second = self.room.watched(root, states, random, random.choice([0, 1, self.count]), kind, again)
            states = second.candidates(len(second.told))
        left = self.device.cut()
        self.counts["pages that couldn't be read at a cut"] = self.device.unreadable
        self.room.found(f"{left}/live", states)

    def failing(self, root):
        """A life whose device fails from a random answer on: what was heard, and what may stand."""
        subject, random = self.room.subject, self.random
        running = self.room.start(root)
        try:
            state, shown = subject.opens(running)
            plan = subject.plan(random, state, self.count)
            # (the first round makes the file's pages, which some file systems treat otherwise)
            front = plan[: random.choice([0, random.randint(0, self.count - 1)])]
            self.ask(running, front)
            self.device.fail()
            running.feed(subject.text(plan[len(front) :]), closes=True)
            status = running.hear_all()
        finally:
            self.device.mend()
            running.process.kill()
            running.process.wait()
        heard = subject.hear(state, shown + plan, running.told, may_refuse=True)
        self.counts["lives that the device ended"] += status == 1
        self.counts["rounds cut off"] += heard.is_cut
        return heard, heard.candidates(len(running.told))

    def ask(self, running, events):
        """Asks events, and waits until all are answered."""
        subject = self.room.subject
        wanted = running.told.count(b"\n") + sum(subject.answer_lines(event) for event in events)
        running.feed(subject.text(events))
        if not running.hear_until(lambda told: told.count(b"\n") >= wanted):
            raise Ended(running)


def fresh_root(device):
    """A root directory in a new file system of a device."""
    device.make()
    root = f"{device.root}/live"
    os.mkdir(root)
    os.sync()
    return root


def takes_files(root):
    """Whether the file system takes a file: it doesn't where a failure reached its journal."""
    path = f"{root}/../probe"
    try:
        with open(path, "wb") as file:
            file.write(b"probe")
            file.flush()
            os.fsync(file.fileno())
        return True
    except OSError:
        return False
