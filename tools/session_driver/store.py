"""Sessions as steps of the program `store_player`, and a judge of what it writes for them.

It knows more than a transcript tells: why a step was refused, where the machine stopped, and the voters of each open, among
which it looks for the place of a round that was cut off by itself.
"""
from collections import Counter

from judging import Fault, read_events
from voters import World, is_in_range

FAULTS = ("refuse", "refuse-in-part", "stop-at", "stop-after", "deny-read", "space")


def steps(session):
    """The steps of a session: each open tells its voters."""
    settings, events = read_events(session)
    lines = ["new", "directory raft"] + ["setting " + line for line in settings if not line.startswith("dir ")]
    for event in events:
        lines += steps_of(event)
    return lines


def steps_of(event):
    """The steps of an event."""
    if event[0] == "round":
        return [("round " + "; ".join(" ".join(words) for words in event[1])).rstrip(" ")]
    if event[0] == "open":
        return [" ".join(event), "voters"]
    if event[0] == "crash-at":
        return [" ".join(["stop-at"] + event[1:])]
    if event[0] in ("purge", "rewrite-append", "rewrite-rewrite"):
        return [event[0], "span"]
    return [" ".join(event)]


def shown(world):
    """The voters of a world as the program tells them: those that are not fresh."""
    told = "told"
    for group in sorted(world.voters):
        voter = world.voters[group]
        if voter != World().voter(group):
            told += f"; {group} {voter.take_status([])} {voter.take_read(['read', group, voter.base + 1, voter.last() + 1])}"
    return told


class StoreJudge:
    """Goes through the steps of a script and what was told of each."""

    def __init__(self):
        self.counts = Counter()
        self.begin()

    def begin(self):
        """Nothing happened yet."""
        self.world = World()
        self.pending = None
        self.is_open = self.has_failed = False
        self.armed = 0

    def judge(self, lines, told):
        """Judges all steps; a `Fault` tells the first that is wrong."""
        for line, answer in zip(lines, told):
            has_stopped = answer.endswith("; stopped")
            self.step(line, answer.removesuffix("; stopped"))
            if has_stopped:
                self.counts["stopped"] += 1
                self.need_cause(line, "a stop")
                self.is_open, self.armed = False, 0

    def need_cause(self, line, what):
        """Something was refused: a fault must have been armed."""
        if self.armed == 0:
            raise Fault(f"{what} without a cause at {line!r}")

    def step(self, line, answer):
        """Judges a step."""
        word = line.split(" ")[0]
        self.counts[word] += 1
        if word == "new":
            self.begin()
        elif word in FAULTS and answer == "armed":
            self.armed += 1
        elif word == "crash":
            self.is_open, self.armed = False, 0
        elif word == "close":
            self.is_open = False
        elif word == "open":
            self.open(line, answer)
        elif word == "voters":
            self.voters(line, answer)
        elif word == "round":
            self.round(line, answer)
        elif word == "span" and " to " in answer:
            self.span(answer)
        elif answer.startswith("refused"):
            self.refuse(line, answer)

    def refuse(self, line, answer):
        """A purge or a copy was refused: for a fault, of a store that had failed, or since files are used again."""
        self.counts[answer] += 1
        if answer == "refused: failed" and self.has_failed or line.startswith("fork") and answer == "refused: invalid argument":
            return
        self.need_cause(line, answer)

    def open(self, line, answer):
        """An open."""
        self.is_open, self.has_failed = answer == "answered", False
        if not self.is_open:
            self.counts["open " + answer] += 1
            self.need_cause(line, answer)

    def voters(self, line, answer):
        """The voters of an open are those so far; a round that was cut off is taken up to the least place that fits."""
        if not self.is_open:
            return
        if answer.startswith("refused"):
            self.need_cause(line, answer)
            return
        requests, refused = self.pending or ([], [])
        self.pending = None
        for place in range(len(requests) + 1):
            if shown(self.world) == answer:
                self.counts["cut off above 0"] += place > 0
                return
            if place < len(requests) and place not in refused:
                self.world.take(requests[place])
        raise Fault(f"voters that nothing explains: {answer}")

    def round(self, line, answer):
        """A round."""
        requests = [text.split(" ") for text in line.split(" ", 1)[1].split("; ")] if " " in line else []
        kind = answer.split(";")[0]
        self.counts[kind] += 1
        if kind == "answered":
            self.answered(line, requests, answer.split("; ")[1:])
        elif kind == "cut off, the file system failed":
            if not self.is_open or self.has_failed:
                raise Fault("a store that isn't open, or has failed, fails")
            self.need_cause(line, kind)
            refused = [int(word) for word in answer.split("; refused ")[1].split(" ")] if "; refused " in answer else []
            self.pending, self.has_failed = (requests, refused), True
        elif not (kind == "no store is open" and not self.is_open or kind == "cut off, the service failed before" and self.may_have_failed()):
            raise Fault(f"{kind} at {line!r}")

    def span(self, answer):
        """The files of both queues, behind a purge."""
        (first, last), (first_rewritten, _) = [map(int, queue.split(" to ")) for queue in answer.split(", ")]
        self.counts["purges behind which Append has several files"] += first < last
        self.counts["purges behind which Append begins past its first file"] += first > 1
        self.counts["purges behind which Rewrite begins past its first file"] += first_rewritten > 1

    def may_have_failed(self):
        """Whether the store has failed, or may have at a purge, by a fault that was armed."""
        return self.is_open and (self.has_failed or self.armed > 0)

    def answered(self, line, requests, replies):
        """A round that was answered."""
        if not self.is_open or self.has_failed or len(replies) != len(requests):
            raise Fault(f"answered: {line!r}")
        for words, reply in zip(requests, replies):
            if reply == "Refused" and is_in_range(words):
                self.need_cause(line, reply)
                self.counts["refused places"] += 1
                continue
            wanted = self.world.take(words)
            if reply != wanted:
                raise Fault(f"{words} is answered {reply}, and not {wanted}")


def judged_steps(lines, text):
    """What fell in a script that is well judged; a `Fault` is raised for another."""
    judge = StoreJudge()
    judge.judge(lines, told_of(lines, text))
    return judge.counts


def told_of(lines, text):
    """What was told of each step."""
    told = text.splitlines()
    if len(told) != len(lines) or any(not each.startswith(line + ": ") for line, each in zip(lines, told)):
        raise Fault("lines that aren't those of the script")
    return [each[len(line) + 2 :] for line, each in zip(lines, told)]
