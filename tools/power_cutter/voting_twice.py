"""Two candidates ask a node for their vote in one term: before and behind a sync that failed and a power cut, in five steps.

1. A round with the first one's request fails at its sync: the node ends with status 1.
2. It is started again in the same boot, and the first candidate asks again: it is told `Granted`.
3. The power is cut.
4. The node is started over what the medium has.
5. The second candidate asks: `Denied` is right.
"""
import errno
from collections import Counter

from disk import Disk
from image import image
from running import Ended, Fault, Watch
from trace import read_trace

# So many bytes that the end of the record lies in another page than its front.
SIZE = 9000


def vote(candidate):
    """A candidate asks group 1 for its vote in term 5."""
    return f"vote 1 5 {candidate} 0 0"


class TwiceVoter:
    """Plays the five steps, with a record before or behind the vote, and for both errors."""

    errors = [errno.EIO, errno.ENOSPC]

    def __init__(self, room, random, sticks=False):
        self.room, self.random, self.sticks = room, random, sticks
        self.counts = Counter()
        self.wrong = []

    def play(self):
        """Plays all cases: in each the second candidate asks at each image that is tried."""
        for name, requests in self.rounds():
            for error in self.errors:
                try:
                    self.case(f"{name}, error {error}", requests, error)
                except Fault as wrong:
                    self.wrong.append(f"{name}, error {error}: {wrong}")

    def rounds(self):
        """The rounds that fail, each with a name: the vote, and a long record before or behind it."""
        append = f"append 2 5 0 0 0 5:{self.random.randbytes(SIZE).hex()}"
        return [("the vote first", [vote(2), append]), ("the vote last", [append, vote(2)])]

    def case(self, name, requests, error):
        """The five steps once, for several images of one cut."""
        root = self.room.root("live", {})
        disk = Disk(root, lose=lambda file: file.synced, sticks=self.sticks)
        syncs = self.syncs_of_an_opening(root)
        root = self.room.root("live", {})
        self.demand_cut(*self.life(root, requests, f"refuse-sync {syncs + 1} {error}", disk))
        self.demand_granted(*self.life(root, [vote(2)], "none", disk))
        for way in ("lost", "kept", None):
            self.ask_second(f"{name}, {way}", self.room.root("image", image(disk, self.random, way)))

    def demand_cut(self, told, status, _notes):
        """The round whose sync failed was cut off, and the node ended with status 1."""
        if "round 0 cut" not in told or status != 1:
            raise Fault(f"the round isn't cut off: {told[-200:]!r}, status {status}")

    def demand_granted(self, told, _status, _notes):
        """The first candidate, who asks again in the same boot, is told `Granted`."""
        if not told.endswith("\n0 1 Granted 5\n"):
            raise Fault(f"candidate 2 is answered {told[-200:]!r} in the same boot")

    def ask_second(self, name, root):
        """The second candidate asks behind the cut."""
        self.counts["checks"] += 1
        answer = self.life(root, [vote(3)])[0].rstrip("\n").rsplit("\n", 1)[-1]
        self.counts[f"times candidate 3 is answered {answer.split(' ', 2)[-1]}"] += 1
        if answer != "0 1 Denied 5":
            self.wrong.append(f"{name}: candidate 2 was told Granted 5, and behind a cut candidate 3 is told {answer!r}")

    def syncs_of_an_opening(self, root):
        """How many syncs there are before the first round."""
        return sum(note.call == "synced" for note in self.life(root, [], "none")[2])

    def life(self, root, requests, fault="none", disk=None, before_round=None):
        """A life in which one round is asked, and which is killed behind its answer: what it told, its status, its notes."""
        trace = f"{self.room.path}/trace"
        open(trace, "wb").close()
        running = self.room.start(root, Watch(self.room.library, root, trace, fault))
        try:
            if not running.hear_until(lambda told: b"\nready\n" in b"\n" + told):
                raise Ended(running)
            if before_round:
                before_round()
            if requests:
                wanted = running.told.count(b"\n") + 1 + len(requests)
                running.feed("".join(line + "\n" for line in ["round"] + requests + ["end"]))
                running.hear_until(lambda told: told.count(b"\n") >= wanted)
            status = running.kill() if fault == "none" else running.hear_all()
        finally:
            running.process.kill()
            running.process.wait()
        notes = read_trace(trace)
        if disk:
            for note in notes:
                disk.take(note)
            disk.forget_handles()
        return running.told.decode(), status, notes
