"""Judges what the program writes for a session, by voters of this folder's own (`voters`), and tells what fell in it.

Beside the replies it asks for causes: what is refused or cut off must have met a fault that was armed, or no open store.
"""
from collections import Counter

from voters import World, is_in_range

MOST_REQUESTS = 4096


class Fault(Exception):
    """What is wrong with a transcript."""


class Round:
    """A round of a transcript: the places that are told as refused, and the replies, or None where it was cut off."""

    def __init__(self, refused, replies):
        self.refused, self.replies = refused, replies


def read_events(session):
    """The settings' lines of a session, and its events: each is its words, a round's last word the list of its requests."""
    settings, events, requests = [], [], None
    lines = [line.split(" ") for line in session.splitlines()]
    if lines and lines[0] == ["config"]:
        end = lines.index(["end"])
        settings, lines = [" ".join(line) for line in lines[1:end]], lines[end + 1 :]
    for words in lines:
        if words == ["round"]:
            requests = []
        elif words == ["end"]:
            events.append(["round", requests])
            requests = None
        elif requests is not None:
            requests.append(words)
        else:
            events.append(words)
    return settings, events


def read_transcript(text, events):
    """The rounds, the cuts and the verdict of what was written for these events."""
    lines = text.splitlines()
    rounds = []
    for event in events:
        if event[0] != "round":
            continue
        head = lines.pop(0).split(" ")
        if head[:2] != ["round", str(len(rounds))]:
            raise Fault(f"round {len(rounds)} begins with {head}")
        if head[2] == "cut":
            if len(head) > 3 and head[3] != "refused":
                raise Fault(f"a cut round's line {head}")
            rounds.append(Round([int(word) for word in head[4:]], None))
            continue
        if head[2:] != ["answered"]:
            raise Fault(f"a round's line {head}")
        replies = []
        for place, words in enumerate(event[1]):
            front = f"{place} {words[1]} "
            if not lines or not lines[0].startswith(front):
                raise Fault(f"no line for place {place}")
            replies.append(lines.pop(0)[len(front) :])
        rounds.append(Round([place for place, reply in enumerate(replies) if reply == "Refused"], replies))
    if len(lines) != 2 or lines[0].split(" ")[0] != "cuts":
        raise Fault(f"it ends with {lines}")
    cuts = lines[0].split(" ")[1:]
    if not all(word.isdecimal() for word in cuts):
        raise Fault(f"the cuts {cuts}")
    return rounds, [int(word) for word in cuts], lines[1]


class Judge:
    """Goes through a session's events and its transcript, and counts what fell."""

    def __init__(self, events, rounds, cuts, has_ample_memory=True):
        self.events, self.rounds, self.cuts = events, list(rounds), list(cuts)
        self.world = World()
        self.counts = Counter()
        # whether a store serves rounds: "yes", "no", or "perhaps" where an armed fault may have fallen in another event
        self.open = "no"
        # how many armed faults may still fall, at most
        self.armed = 0
        self.has_ample_memory = has_ample_memory

    def judge(self):
        """Raises where something is wrong; else what fell is in `counts`."""
        for place, event in enumerate(self.events):
            self.counts[event[0] if event[0] != "crash" else f"crash {event[1]}"] += 1
            if event[0] == "round":
                self.judge_round(place, event[1])
            else:
                self.pass_event(event)
        if self.cuts:
            raise Fault("more cuts than rounds that were cut off")

    def pass_event(self, event):
        """An event that answers nothing: what it may have made of the store."""
        if event[0] in ("refuse", "crash-at"):
            self.armed += 1
        elif event[0] == "crash":
            self.open, self.armed = "no", 0
        elif event[0] == "close":
            self.open = "no"
        elif event[0] == "open":
            self.open = "perhaps" if self.may_fail() else "yes"
        elif self.open == "yes" and event[0] != "fork" and self.may_fail():
            self.open = "perhaps"

    def may_fail(self):
        """Whether an event may fail now."""
        return self.armed > 0 or not self.has_ample_memory

    def judge_round(self, place, requests):
        """A round: its replies, or its cut."""
        told = self.rounds.pop(0)
        self.counts["requests"] += len(requests)
        if told.replies is None:
            self.judge_cut(place, requests, told.refused)
        else:
            self.judge_answer(requests, told)

    def judge_answer(self, requests, told):
        """A round that was answered: each reply is its group's voter's, or it is refused for a cause."""
        if self.open == "no" or len(requests) > MOST_REQUESTS:
            raise Fault("a round is answered that can't be")
        self.open = "yes"
        refused = 0
        for words, reply in zip(requests, told.replies):
            if reply == "Refused" and is_in_range(words):
                refused += 1
                continue
            wanted = self.world.take(words)
            if reply != wanted:
                raise Fault(f"{words} is answered {reply}, and not {wanted}")
        self.spend(refused)
        self.counts["answered"] += 1
        self.counts["answered, a place refused by a fault"] += refused > 0

    def spend(self, refused):
        """So many places were refused by faults: each is an armed one that fell."""
        if self.has_ample_memory and refused > self.armed:
            raise Fault("a place is refused without a cause")
        self.armed -= min(refused, self.armed)

    def judge_cut(self, place, requests, refused):
        """A round that was cut off: for a cause, and up to the least place that fits."""
        if not self.cuts:
            raise Fault("a cut is missing")
        cut = self.cuts.pop(0)
        self.counts["cut off"] += 1
        if refused != sorted(set(refused)) or any(each >= len(requests) for each in refused) or cut > len(requests):
            raise Fault("refused places or a cut past their round")
        is_shown = any(event[0] == "open" for event in self.events[place + 1 :])
        if cut > 0 and (self.open == "no" or not is_shown or len(requests) > MOST_REQUESTS):
            raise Fault("a round was taken that can't be")
        if len(requests) <= MOST_REQUESTS and self.open != "no":
            self.spend(sum(is_in_range(requests[each]) for each in refused))
            if not self.may_fail():
                raise Fault("a round is cut off without a cause")
            self.spend(1)
            self.counts["cut off at a store that was open, or may have been"] += 1
            # (where memory was refused nothing was taken, and the store serves the next round)
            self.open = "no" if self.has_ample_memory else "perhaps"
        elif refused:
            raise Fault("a place is refused of a round that is not served")
        self.counts["cut off above 0"] += cut > 0
        self.counts["cut off above 0 and below the end"] += 0 < cut < len(requests)
        self.counts["cut off, a place refused"] += bool(refused)
        self.take_first(requests, refused, cut)

    def take_first(self, requests, refused, cut):
        """The requests below a cut are taken; no lesser place leaves the same voters."""
        before = []
        for place, words in enumerate(requests[:cut]):
            before.append(self.world.copy())
            if place not in refused:
                self.world.take(words)
        if any(world == self.world for world in before):
            raise Fault("a cut that isn't the least")


def judged(session, text, has_ample_memory=True):
    """What fell in a session that is well judged; a `Fault` is raised for another."""
    _settings, events = read_events(session)
    try:
        rounds, cuts, verdict = read_transcript(text, events)
    except (IndexError, ValueError) as fault:
        raise Fault(f"unreadable: {fault!r}") from fault
    if verdict != "verdict yes":
        raise Fault(verdict)
    judge = Judge(events, rounds, cuts, has_ample_memory)
    judge.judge()
    return judge.counts
