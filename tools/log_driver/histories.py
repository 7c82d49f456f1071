"""Random texts of sessions on a log: events of all kinds over a few groups, with settings so small that files are full after
some batches.

What is written to a group follows what it has if every write succeeds and each crash keeps what was synced, so most events
change something. After each open most of the log is read: what a crash left is told apart by that.
"""

TARGETS = [256, 512, 1024, 2048, 8192]
KEYS = ["'a'", "'b'", "'c'", "'aa'", "''", "ff", "00"]


def settings(random):
    """The line of random settings; seldom none, which are the usual ones, since their files are large, and take seconds."""
    if random.random() < 0.0005:
        return []
    target = random.choice(TARGETS)
    words = [
        "settings",
        f"target-file-size={target}",
        f"purge-threshold={target * random.choice([1, 1, 2, 3, 6])}",
        f"recovery-read-block-size={random.choice([512, 600, 4096])}",
    ]
    if random.random() < 0.5:
        words.append(f"purge-rewrite-threshold={random.choice([1, target, 2 * target])}")
        words.append(f"purge-rewrite-garbage-ratio={random.choice([0, 100, 600])}")
    if random.random() < 0.5:
        words.append("enable-log-recycle=false")
        if random.random() < 0.3:
            words.append("format-version=1")
    elif random.random() < 0.2:
        words.append("prefill-for-recycle=true")
    if random.random() < 0.2:
        words.append(f"recovery-mode={random.choice(['absolute-consistency', 'tolerate-any-corruption'])}")
    return [" ".join(words)]


def piece(random):
    """What a crash leaves of one change."""
    kind = random.random()
    if kind < 0.5:
        return "keep"
    if kind < 0.8:
        return "lose"
    size = random.choice([1, 3, 8, 17, 40, 100])
    return bytes(random.getrandbits(8) for _ in range(size)).hex() if kind < 0.95 else f"00*{size}"


def remainder(random):
    """What a crash leaves."""
    kind = random.random()
    if kind < 0.25:
        return "synced"
    if kind < 0.45:
        return "all"
    if kind < 0.75:
        bytes_kept = random.choice(["", " bytes=1", " bytes=7", " bytes=17", " bytes=60", " bytes=700"])
        return f"first changes={random.choice([0, 1, 1, 2, 2, 3, 4, 5, 9])}{bytes_kept}"
    return ",".join(piece(random) for _ in range(random.choice([1, 2, 3, 5, 8])))


def call(random):
    """The number of a call that changes files: most are near."""
    return random.choice([1, 1, 1, 2, 2, 3, 3, 4, 5, 6, 7, 8, 10, 13, 20, 40])


class Group:
    """What a group has, if all writes succeed: the first and the last index, and the last one that is durable."""

    def __init__(self):
        self.first, self.last, self.synced = 1, 0, 0


class History:
    """Makes the lines of one session."""

    def __init__(self, random):
        self.random = random
        numbers = random.sample([0, 1, 2, 3, 7, 129, 2**63, 2**64 - 1], random.randint(1, 3))
        self.groups = {number: Group() for number in numbers}
        self.count = 0
        self.is_open = False
        self.unsynced = 0
        self.is_armed = False
        self.targets = ["log"]

    def group(self):
        """One of the groups: its number and what it has."""
        return self.random.choice(list(self.groups.items()))

    def bytes(self):
        """Bytes that no other place has, most of them few."""
        self.count += 1
        size = self.random.choice([0, 0, 0, 0, 0, 5, 20, 90, 90, 300]) if self.random.random() < 0.98 else 1500
        return f"{self.count:04x}" + (f"+{self.random.getrandbits(8):02x}*{size}" if size else "")

    def append(self, number, group):
        """Entries at the end of a group, or at an earlier index, after which no entry is left. Seldom past the end."""
        chance = self.random.random()
        first = group.last + 1
        if chance < 0.25 and group.first <= group.last:
            first = self.random.randint(group.first, group.last)
        elif chance < 0.28:
            first += self.random.choice([1, 3, 2**63])
        elif chance < 0.30:
            first = max(group.first - 1, 0)
        count = self.random.choice([1, 1, 1, 2, 3, 5])
        if first <= group.last + 1:
            group.last = first + count - 1
            group.first = min(group.first, first)
        return f"append group={number} index={first} entries={','.join(self.bytes() for _ in range(count))}"

    def put(self, number):
        """A key's value."""
        return f"put group={number} key={self.random.choice(KEYS)} value={self.bytes()}"

    def compact(self, number, group):
        """The index below which a group is compacted."""
        group.first = min(group.first + self.random.choice([0, 1, 1, 2, 4]), group.last + 1)
        return f"group={number} index={group.first}"

    def clean(self, number, group):
        """The deletion of a group."""
        group.first, group.last, group.synced = 1, 0, 0
        return f"clean group={number}"

    def change(self):
        """A line that fills a batch."""
        number, group = self.group()
        kind = self.random.random()
        if kind < 0.55:
            return self.append(number, group)
        if kind < 0.80:
            return self.put(number)
        if kind < 0.90:
            return f"delete group={number} key={self.random.choice(KEYS)}"
        if kind < 0.97:
            return f"compact {self.compact(number, group)}"
        return self.clean(number, group)

    def synced(self):
        """All batches are durable."""
        self.unsynced = 0
        for group in self.groups.values():
            group.synced = group.last

    def write(self):
        """A batch and its write."""
        lines = [self.change() for _ in range(self.random.choice([0, 1, 1, 1, 1, 2, 2, 3, 5]))]
        if self.unsynced >= 4 or self.random.random() < 0.35:
            self.synced()
            return lines + ["write sync"]
        self.unsynced += 1
        return lines + ["write"]

    def read(self):
        """A read."""
        number, group = self.group()
        kind = self.random.random()
        if kind < 0.25:
            return f"get group={number} key={self.random.choice(KEYS)}"
        if kind < 0.4:
            return f"{self.random.choice(['first-index', 'last-index'])} group={number}"
        if kind < 0.6:
            return f"entry group={number} index={self.random.randint(0, group.last + 2)}"
        if kind < 0.8:
            begin = self.random.randint(0, group.last + 1)
            end = begin + self.random.choice([0, 1, 2, 3, 5])
            size = self.random.choice(["", "", " size=0", " size=1", " size=90", " size=700"])
            return f"fetch group={number} from={begin} below={end}{size}"
        start = self.random.choice(["", "", f" from={self.random.choice(KEYS)}"])
        end = self.random.choice(["", "", f" below={self.random.choice(KEYS)}"])
        return f"scan group={number}{start}{end}"

    def everything(self):
        """Reads of most of the log."""
        lines = []
        for number, group in self.groups.items():
            lines += [f"scan group={number}", f"first-index group={number}", f"last-index group={number}"]
            lines += [f"fetch group={number} from={group.first} below={group.last + 1}"]
            lines += [f"entry group={number} index={index}" for index in range(max(group.last - 2, 0), group.last + 2)]
        return lines

    def purge(self):
        """A purge."""
        kind = self.random.choice(["purge", "purge", "purge-stale", "rewrite-append", "rewrite-append", "rewrite-rewrite"])
        if kind == "rewrite-append" and self.random.random() < 0.4:
            kind += self.random.choice([" watermark=1", " watermark=2", " exit=1", " exit=2", " watermark=3 exit=1"])
        self.synced()
        return kind

    def open(self):
        """An open, and reads of most of what it finds."""
        was_open, self.is_open = self.is_open, True
        return [f"open workers={self.random.randint(1, 4)}"] + ([] if was_open else self.everything())

    def fork(self):
        """A copy, seldom into a directory that may have files of a log."""
        if self.random.random() < 0.15:
            return [f"fork target={self.random.choice(self.targets)}"]
        self.targets.append(f"copy-{len(self.targets)}")
        return [f"fork target={self.targets[-1]}"]

    def crash(self):
        """A crash."""
        self.is_open = self.is_armed = False
        self.unsynced = 0
        for group in self.groups.values():
            group.last = max(group.synced, group.first - 1)
        return [f"crash keep={remainder(self.random)}"]

    def close(self):
        """A close."""
        self.is_open = False
        self.synced()
        return ["close"]

    def arm(self):
        """A fault, and often another one."""
        self.is_armed = True
        if self.random.random() < 0.4:
            return [f"stop call={call(self.random)}" + self.random.choice(["", " after"])]
        number = call(self.random)
        lines = [f"refuse call={number}" + self.random.choice(["", "", " part=1", " part=30", " part=300"])]
        if self.random.random() < 0.3:
            lines.append(f"refuse call={number + self.random.choice([1, 1, 2, 3])}")
        return lines

    def sync(self):
        """A sync."""
        self.synced()
        return ["sync"]

    def event(self, faults):
        """The lines of an event; faults are so much likelier than usual."""
        kinds = ["write", "read", "sync", "compact", "purge", "open", "close", "fork", "crash", "arm"]
        weights = [40, 15, 4, 4, 10, 2, 3, 1, 4, 8 * faults]
        kind = self.random.choices(kinds, weights)[0]
        if kind == "read":
            return [self.read()]
        if kind == "compact":
            return [f"compact-to {self.compact(*self.group())}"]
        if kind == "purge":
            return [self.purge()]
        return getattr(self, kind)()

    def lines(self):
        """The lines of the session. Near its end a crash or a close comes, and then an open."""
        faults = self.random.choice([0, 0.3, 1, 1, 2])
        lines = settings(self.random) + self.open()
        for _ in range(self.random.choice([4, 6, 8, 12, 20])):
            lines += self.event(faults)
            if self.is_armed and self.random.random() < 0.15:
                lines += self.random.choice([self.crash, self.close])()
            if not self.is_open and self.random.random() < 0.3:
                lines += self.fork()
            if not self.is_open and self.random.random() < 0.8:
                lines += self.open()
        lines += self.everything() if self.random.random() < 0.5 else []
        lines += self.random.choice([self.crash, self.crash, self.close])()
        lines += self.fork() if self.random.random() < 0.3 else []
        return lines + self.open()


def history(random):
    """The text of a random session."""
    return "\n".join(History(random).lines()) + "\n"
