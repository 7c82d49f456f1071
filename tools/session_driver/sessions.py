"""Random sessions: events of all kinds over a few groups, with settings so small that files are full after some requests.

What is asked of a group follows a voter that takes everything, so that most requests change something.
"""
from voters import World

TARGETS = [512, 1024, 2048, 8192]


def settings(random):
    """The lines of random settings, or none: the usual ones."""
    if random.random() < 0.1:
        return []
    target = random.choice(TARGETS)
    lines = [
        "config",
        'dir = "raft"',
        f"target-file-size = {target}",
        f"purge-threshold = {target * random.choice([1, 1, 2, 3, 6])}",
        f"recovery-read-block-size = {random.choice([512, 600, 4096])}",
    ]
    if random.random() < 0.5:
        lines.append(f"purge-rewrite-threshold = {random.choice([1, target, 2 * target])}")
        lines.append(f"purge-rewrite-garbage-ratio = {random.choice([0, 100, 600])}")
    if random.random() < 0.3:
        lines.append("enable-log-recycle = false")
        if random.random() < 0.3:
            lines.append("format-version = 1")
    elif random.random() < 0.2:
        lines.append("prefill-for-recycle = true")
    if random.random() < 0.2:
        lines.append('spill-dir = "spill"')
    return lines + ["end"]


def remainder(random):
    """What a crash leaves."""
    kind = random.random()
    if kind < 0.25:
        return "last"
    if kind < 0.5:
        return "all"
    return f"first {random.choice([0, 1, 1, 2, 2, 3, 4, 5, 9])} {random.choice([0, 0, 1, 7, 17, 60, 100, 700])}"


def call(random):
    """The number of a call that changes files: most are near."""
    return random.choice([1, 1, 2, 2, 3, 3, 4, 5, 6, 7, 8, 10, 13, 20, 40])


def data(random):
    """The bytes of an entry in hex: some have none, some fill a file."""
    size = random.choice([0, 0, 0, 1, 1, 3, 3, 20, 20, 20, 20, 90, 90, 300, 700, 1500])
    return bytes(random.getrandbits(8) for _ in range(size)).hex()


class Asker:
    """Makes requests for some groups."""

    def __init__(self, random):
        self.random = random
        self.world = World()
        self.groups = random.sample([0, 1, 2, 3, 4, 5, 129, 2**64 - 1], random.randint(1, 4))
        self.is_open = True

    def request(self):
        """The line of a request, as if it and all before it were taken."""
        random = self.random
        group = random.choice(self.groups)
        make = random.choices(
            [self.vote, self.append, self.old_append, self.compact, self.install, self.read, self.status, self.retire, self.odd],
            [4, 9, 2, 4, 1, 2, 2, 0.5, 0.5],
        )[0]
        line = make(group, self.world.voter(group))
        self.world.take(line.split(" "))
        return line

    def vote(self, group, voter):
        """A candidate of this term or a later one, which may be behind."""
        term = voter.term + self.random.choice([0, 0, 1, 1, 2])
        last = voter.last()
        behind = self.random.choice([0, 0, 0, 1])
        return f"vote {group} {term} {self.random.randint(1, 3)} {max(last - behind, 0)} {voter.term_at(last)}"

    def entries(self, term):
        """Up to four entries of a term."""
        return "".join(f" {term}:{data(self.random)}" for _ in range(self.random.choice([0, 1, 1, 1, 2, 2, 4])))

    def append(self, group, voter):
        """Entries at the end of the log."""
        last = voter.last()
        term = voter.term + self.random.choice([0, 0, 0, 1])
        commit = self.random.choice([0, last, last, last + 1, last + 3])
        return f"append {group} {term} {last} {voter.term_at(last)} {commit}{self.entries(term)}"

    def old_append(self, group, voter):
        """Entries at any index, with which later ones may go."""
        index = self.random.randint(voter.base, voter.last())
        term = voter.term + self.random.choice([0, 1])
        return f"append {group} {term} {index} {voter.term_at(index)} {voter.commit}{self.entries(self.random.choice([term, voter.term]))}"

    def compact(self, group, voter):
        """A compaction up to what is committed, or right before it."""
        return f"compact {group} {max(voter.commit - self.random.choice([0, 0, 0, 1]), 0)}"

    def install(self, group, voter):
        """A snapshot, within the log or behind it."""
        index = self.random.randint(voter.base, voter.last() + 3)
        term = voter.term_at(index)
        return f"install {group} {voter.term} {index} {voter.term if term is None else term}"

    def read(self, group, voter):
        """Entries from an index on."""
        first = self.random.randint(voter.base, voter.last() + 1)
        return f"read {group} {first} {voter.last() + self.random.choice([0, 1, 1, 1, 2])}"

    def status(self, group, _voter):
        """The state."""
        return f"status {group}"

    def retire(self, group, _voter):
        """The group is retired."""
        return f"retire {group}"

    def odd(self, group, voter):
        """A request out of range, or out of place."""
        return self.random.choice(
            [
                f"vote {group} {2**63} 1 0 0",
                f"append {group} {voter.term} {voter.last() + 2} 7 0 7:",
                f"append {group} {voter.term} 0 0 {2**63}",
                f"append {group} {voter.term} {2**63 - 1} 0 0 1:",
                f"compact {group} {2**63 - 1}",
                f"read {group} 0 1",
                f"install {group} {voter.term} {2**64 - 1} 1",
            ]
        )

    def round(self):
        """The lines of a round."""
        before = None if self.is_open else self.world.copy()
        count = self.random.choice([0, 1, 1, 1, 2, 2, 3, 4, 6, 12])
        lines = ["round"] + [self.request() for _ in range(count)] + ["end"]
        self.world = before or self.world
        return lines

    def everything(self):
        """A round that shows all voters, and the entries of each one that nothing was lost of."""
        lines = ["round"]
        for group in self.groups:
            voter = self.world.voter(group)
            lines += [f"status {group}", f"read {group} {voter.base + 1} {voter.last() + 1}"]
        return lines + ["end"]


def event(random, asker, faults):
    """The lines of an event; stops and refusals are so much likelier than in the usual session."""
    kinds = ["round", "purge", "rewrite-append", "rewrite-rewrite", "open", "close", "crash", "crash-at", "refuse", "fork"]
    weights = [40, 5, 4, 4, 8, 3, 6, 8 * faults, 12 * faults, 2]
    kind = random.choices(kinds, weights)[0]
    asker.is_open = kind == "open" or asker.is_open and kind not in ("close", "crash")
    if kind == "round":
        return asker.round()
    if kind == "open":
        return [f"open {random.randint(1, 4)}"]
    if kind == "crash":
        return [f"crash {remainder(random)}"]
    if kind == "crash-at":
        return [f"crash-at {call(random)} {remainder(random)}"] + (asker.round() if random.random() < 0.6 else [])
    if kind == "refuse":
        number = call(random)
        another = [f"refuse {number + random.choice([1, 1, 2, 3])}"] if random.random() < 0.3 else []
        return [f"refuse {number}"] + another + (asker.round() if random.random() < 0.5 else [])
    if kind == "fork":
        closes = random.random() < 0.7
        asker.is_open = asker.is_open and not closes
        return (["close"] if closes else []) + [f"fork copy{random.randint(1, 3)}"]
    return [kind]


def session(random):
    """The text of a session. In the end what is stored is shown by an open on which no fault falls, behind a crash or not."""
    asker = Asker(random)
    faults = random.choice([0, 0.3, 1, 1, 2])
    lines = settings(random) + [f"open {random.randint(1, 4)}"]
    for _ in range(random.choice([3, 6, 10, 16, 25])):
        lines += event(random, asker, faults)
        if not asker.is_open and random.random() < 0.7 or random.random() < 0.15 * faults:
            lines += [f"open {random.randint(1, 4)}"]
            asker.is_open = True
    if random.random() < 0.5:
        lines += [f"open {random.randint(1, 4)}"] + asker.everything()
    lines += [f"crash {remainder(random)}", f"open {random.randint(1, 4)}"] + asker.everything()
    return "\n".join(lines) + "\n"
