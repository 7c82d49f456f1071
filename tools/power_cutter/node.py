"""The program `raftnode`: a store of voters, judged by voters of tools/session_driver that never crash.

A state is a world of voters. A plan is a list of events: a round with its requests, or the word of a purge.
"""
import sys

from running import HERE, Ended, Fault, NotShown

sys.path.insert(0, f"{HERE}/../session_driver")

from sessions import TARGETS, Asker  # noqa: E402
from voters import Voter, World, is_in_range  # noqa: E402

PURGES = ["purge", "purge", "purge", "rewrite-append", "rewrite-rewrite"]


def settings(random):
    """A text of settings so small that files are full after some requests."""
    target = random.choice(TARGETS)
    lines = [
        f"target-file-size = {target}",
        f"purge-threshold = {target * random.choice([1, 1, 2, 3, 6])}",
        f"recovery-read-block-size = {random.choice([512, 600, 4096])}",
        f"recovery-threads = {random.randint(1, 4)}",
    ]
    if random.random() < 0.5:
        lines.append(f"purge-rewrite-threshold = {random.choice([1, target, 2 * target])}")
        lines.append(f"purge-rewrite-garbage-ratio = {random.choice([0, 100, 600])}")
    if random.random() < 0.2:
        lines.append("enable-log-recycle = false")
        if random.random() < 0.3:
            lines.append("format-version = 1")
    elif random.random() < 0.2:
        lines.append("prefill-for-recycle = true")
    if random.random() < 0.1:
        lines.append('spill-dir = "spill"')
    return "\n".join(lines) + "\n"


class Node:
    """What is asked of the program, and what is right."""

    name = "raftnode"
    # A refused round or purge is told, and it goes on.
    ends_at_a_refusal = False

    def __init__(self, program):
        self.program = program

    def words(self, settings_path):
        """The command that runs it."""
        return self.program + ["log"] + ([settings_path] if settings_path else [])

    def fresh(self):
        """What stands where nothing was done."""
        return World()

    def plan(self, random, world, count):
        """The events of a run."""
        asker = Asker(random)
        asker.world = world.copy()
        asker.groups = sorted(set(asker.groups[:3]) | set(random.sample(sorted(world.voters), min(len(world.voters), 2))))
        events = []
        for _ in range(count):
            if random.random() < 0.15:
                events.append((random.choice(PURGES), None))
            else:
                events.append(("round", [line.split(" ") for line in asker.round()[1:-1]]))
        return events

    def text(self, events):
        """The lines that tell the program of events."""
        lines = []
        for kind, requests in events:
            lines += ["round"] + [" ".join(words) for words in requests] + ["end"] if kind == "round" else [kind]
        return "".join(line + "\n" for line in lines)

    def answer_lines(self, event):
        """How many lines answer an event."""
        return 1 + len(event[1] or [])

    def opens(self, running):
        """Waits until a started program serves, and finds the voters that stand: the state, and the events that showed it."""
        if not running.hear_until(lambda told: b"\nready\n" in b"\n" + told):
            raise Ended(running)
        voters = listed(running.told.decode())
        event = ("round", [words for group in voters for words in reading(group, voters[group])])
        if not voters:
            return World(), []
        running.feed(self.text([event]))
        if not running.hear_until(lambda told: is_answered(told, len(event[1]))):
            raise Ended(running)
        return world_read(voters, running.told.decode(), event[1]), [event]

    def unheard(self, states):
        """What may stand behind an opening of which nothing was heard."""
        return states

    def hear(self, world, events, told, may_refuse=False):
        """What a run answered of events that begin behind `ready`; where a place may be refused its request isn't taken then."""
        return Heard(world, events, told, may_refuse)

    def differs(self, found, candidates):
        """Says in which way a state is none of the candidates."""
        lines = [f"found {outline(found)}"]
        for each in candidates:
            apart = [group for group in sorted(set(found.voters) | set(each.voters)) if found.voter(group) != each.voter(group)]
            lines.append(f"candidate {outline(each)}, other groups {apart}")
        return "; ".join(lines[:1] + lines[1:2] + lines[-1:])


def outline(world):
    """Each voter's status."""
    return {group: voter.take_status([]) for group, voter in sorted(world.voters.items())}


def listed(told):
    """The voters that an opening lists: the words of the status of each group."""
    voters = {}
    for line in told.split("\n"):
        if line == "ready":
            break
        words = line.split(" ")
        if words[0] != "voter" or len(words) != 10 or words[2] != "Status" or int(words[1]) in voters:
            raise Fault(f"an opening tells {line!r}")
        voters[int(words[1])] = words[2:]
    return voters


def reading(group, status):
    """The requests that show a voter."""
    base, last = int(status[3]), int(status[5])
    return [["status", str(group)], ["read", str(group), str(base + 1), str(last + 1)]]


def is_answered(told, count):
    """Whether a run's first round was answered, with all lines of it, or cut off."""
    behind = (b"\n" + told).split(b"\nready\n", 1)[-1].split(b"\n")[:-1]
    return len(behind) > count or behind[:1] and behind[0].startswith(b"round 0 cut")


def world_read(voters, told, requests):
    """The world that the replies of the showing round tell."""
    lines = ("\n" + told).split("\nready\n", 1)[1].split("\n")
    if lines[0].startswith("round 0 cut"):
        raise NotShown("the round that shows the voters is cut off")
    if lines[0] != "round 0 answered":
        raise Fault(f"the voters aren't shown: {lines[0]!r}")
    world = World()
    for place, words in enumerate(requests):
        front = f"{place} {words[1]} "
        if not lines[place + 1].startswith(front):
            raise Fault(f"a reply {lines[place + 1][:100]!r}")
        reply = lines[place + 1][len(front) :].split(" ")
        group = int(words[1])
        if words[0] == "status":
            if reply != voters[group]:
                raise Fault(f"group {group} is listed as {voters[group]}, and is {reply}")
            continue
        world.voters[group] = voter_read(voters[group], reply)
    return world


def voter_read(status, reply):
    """The voter that has a status and these entries."""
    voter = Voter()
    term, vote, base, base_term, last, last_term, commit = status[1:]
    voter.term, voter.vote = int(term), None if vote == "-" else int(vote)
    voter.base, voter.base_term, voter.commit = int(base), int(base_term), int(commit)
    if reply[0] != "Entries":
        raise Fault(f"entries that are listed aren't read: {reply}")
    for place, entry in enumerate(reply[1:]):
        index, entry_term, data = entry.split(":")
        if int(index) != voter.base + 1 + place:
            raise Fault(f"entry {index} in the place of {voter.base + 1 + place}")
        voter.entries.append((int(entry_term), data))
    if voter.last() != int(last) or voter.term_at(voter.last()) != int(last_term):
        raise Fault(f"a status {status} with {len(voter.entries)} entries")
    return voter


class Heard:
    """What a run answered: which events ended by which byte that it told, whether it was cut off, and the voters between."""

    def __init__(self, world, events, told, may_refuse):
        self.worlds, self.ends, self.events = [world], [], events
        self.may_refuse = may_refuse
        self.is_cut, self.cut_refused = False, []
        self.refused_purges = self.refused_places = 0
        opening, mark, rest = (b"\n" + told).partition(b"\nready\n")
        self.is_open = bool(mark)
        self.ready_end = len(opening) + len(mark) - 1
        self.lines = [] if not mark else rest.split(b"\n")[:-1]
        self.at, self.rounds = self.ready_end, 0
        for event in events:
            if not self.lines or self.is_cut:
                break
            self.hear_event(*event)
        if self.lines:
            raise Fault(f"behind all events it tells {self.lines[0]!r}")

    def line(self):
        """The next line, of those that were told whole, or None."""
        if not self.lines:
            return None
        line = self.lines.pop(0)
        self.at += len(line) + 1
        return line.decode()

    def hear_event(self, kind, requests):
        """Hears of an event."""
        if kind == "round":
            self.hear_round(requests)
            return
        line = self.line()
        if line != "purged" and not line.startswith("purge failed: "):
            raise Fault(f"{kind} is answered {line!r}")
        self.refused_purges += line != "purged"
        self.worlds.append(self.worlds[-1])
        self.ends.append(self.at)

    def hear_round(self, requests):
        """Hears of a round: it is answered as its voters answer it, or cut off."""
        line = self.line()
        front = f"round {self.rounds} "
        if line == front + "cut" or line.startswith(front + "cut refused"):
            self.is_cut = True
            self.cut_refused = [int(word) for word in line.split(" ")[4:]]
            return
        if line != front + "answered":
            raise Fault(f"round {self.rounds} is told as {line!r}")
        self.ends.append(self.at)
        self.rounds += 1
        world = self.worlds[-1].copy()
        for place, words in enumerate(requests):
            line = self.line()
            if self.may_refuse and line == f"{place} {words[1]} Refused" and is_in_range(words):
                self.refused_places += 1
                continue
            wanted = f"{place} {words[1]} {world.take(words)}"
            if line is not None and line != wanted:
                raise Fault(f"{' '.join(words)[:200]} is answered {line[:200]!r}, and not {wanted[:200]!r}")
        self.worlds.append(world)

    def answered(self):
        """How many events were answered."""
        return len(self.ends)

    def candidates(self, told):
        """The worlds that may stand where so many bytes were told: that of the answered rounds, and each front of the next."""
        done = sum(end <= told for end in self.ends)
        world = self.worlds[done].copy()
        candidates = [world.copy()]
        if self.is_open and told >= self.ready_end and done < len(self.events) and self.events[done][0] == "round":
            for place, words in enumerate(self.events[done][1]):
                if place not in self.cut_refused:
                    world.take(words)
                candidates.append(world.copy())
        return candidates
