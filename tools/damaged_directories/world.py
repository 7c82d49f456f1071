"""What a log is to hold, as plain maps, and the steps that are played on it."""
from player import shown

FILLS = [0x61, 0x62, 0x63, 0x00, 0xFF]


class World:
    """The entries and keys of all groups."""

    def __init__(self, groups=None):
        self.groups = groups or {}

    def copy(self):
        return World({group: (dict(entries), dict(keys)) for group, (entries, keys) in self.groups.items()})

    def group(self, group):
        return self.groups.setdefault(group, ({}, {}))

    def take(self, items):
        """The world behind items; none where entries would leave a hole."""
        world = self.copy()
        for item in items:
            if not world.take_one(item):
                return None
        return world

    def take_one(self, item):
        kind, group, *rest = item
        entries, keys = self.group(group)
        if kind == "entries":
            first, bytes_ = rest
            if entries and first > max(entries) + 1:
                return False
            for index in [index for index in entries if index >= first]:
                del entries[index]
            entries.update(enumerate(bytes_, first))
        elif kind == "put":
            keys[rest[0]] = rest[1]
        elif kind == "del":
            keys.pop(rest[0], None)
        elif kind == "clean":
            entries.clear()
            keys.clear()
        else:
            for index in [index for index in entries if index < rest[0]]:
                del entries[index]
        return True

    def below(self, group, index):
        return sum(1 for at in self.group(group)[0] if at < index)

    def is_told(self, told):
        """Whether the program tells this world."""
        some = {group: of for group, of in self.groups.items() if of[0] or of[1]}
        if {group for group, of in told.items() if of[0] or of[2]} != set(some):
            return False
        return all(told[group][0] == {index: shown(bytes_) for index, bytes_ in entries.items()} and not told[group][1]
                   and told[group][2] == {key: shown(value) for key, value in keys.items()}
                   for group, (entries, keys) in some.items())

    def __repr__(self):
        return repr({group: ({index: shown(bytes_) for index, bytes_ in entries.items()}, {key: shown(value) for key, value in keys.items()})
                     for group, (entries, keys) in self.groups.items() if entries or keys})


def filled(bytes_):
    """Bytes of one kind, as the program takes them."""
    return f"{len(bytes_)}*{bytes_[0] if bytes_ else 0:02x}"


def spelled(items):
    """The words of items."""
    words = []
    for kind, group, *rest in items:
        if kind == "entries":
            words.append(f"e:{group}:{rest[0]}:{','.join(map(filled, rest[1]))}")
        elif kind == "put":
            words.append(f"p:{group}:{rest[0].hex()}:{filled(rest[1])}")
        elif kind == "del":
            words.append(f"d:{group}:{rest[0].hex()}")
        elif kind == "clean":
            words.append(f"c:{group}")
        else:
            words.append(f"t:{group}:{rest[0]}")
    return " ".join(words)


def bytes_of(random, longest):
    return bytes([random.choice(FILLS)]) * random.choice([0, 1, 2, 5, random.randrange(1, longest)])


def batch(random, world, longest=60):
    """A batch that may come."""
    items, now = [], world.copy()
    for _ in range(random.choice([1, 1, 1, 2, 3])):
        group = random.choice([1, 1, 2, 3, 7, 300])
        entries, keys = now.group(group)
        kind = random.choices(["entries", "put", "del", "clean", "compact"], [10, 5, 2, 0.4, 2])[0]
        if kind == "entries":
            end = max(entries) + 1 if entries else random.choice([0, 1, 5, 1000, 1 << 40])
            first = end if random.random() < 0.75 or not entries else random.randrange(min(entries), end + 1)
            item = ("entries", group, first, [bytes_of(random, longest) for _ in range(random.choice([1, 1, 2, 4]))])
        elif kind == "put":
            item = ("put", group, random.choice([b"k", b"voter", b"", b"_x"]), bytes_of(random, longest))
        elif kind == "del":
            item = ("del", group, random.choice([key for key in keys if not key.startswith(b"__")] or [b"k"]))
        elif kind == "clean":
            item = ("clean", group)
        else:
            item = ("compact", group, random.randrange(min(entries), max(entries) + 2) if entries else random.randrange(9))
        if now.take_one(item):
            items.append(item)
    return items or [("put", 1, b"k", b"v")]
