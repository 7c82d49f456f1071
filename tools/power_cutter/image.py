"""What a power cut may leave of a disk: a tree of files, chosen at random among all that the disk allows.

A synced byte stands where no later change touches it. Of each change since (a write, a shortening, a growth) anything may be
left: nothing, all, a part, or other bytes in its place; and the file ends anywhere in what was touched at its end.
"""
from disk import Directory, set_name
from file import File, apply

SECTOR = 512
WAYS = ["lost", "kept", "front", "front", "front", "some", "sectors", "garbled", "garbled", "holes", "short"]


def image(disk, random, way=None):
    """A tree that a power cut may leave; a way is that of all files, and of the names where it is `lost` or `kept`."""
    names = names_left(disk, random, way)
    return tree_of(disk.top, names, random, way or random.choice(WAYS + [None] * 6))


def names_left(disk, random, way):
    """The names in each directory: the durable ones, and for each directory a front of its later changes."""
    fronts = {}
    for change in disk.pending:
        for directory in change.directories():
            fronts[id(directory)] = fronts.get(id(directory), 0) + 1
    for each, count in fronts.items():
        fronts[each] = {"lost": 0, "kept": count}.get(way, random.randint(0, count))
    names, stopped = {}, []
    for change in disk.pending:
        touched = change.directories()
        if any(fronts[id(each)] == 0 for each in touched) or change.touches(stopped):
            stopped += touched
            continue
        for directory, name, target in change.parts:
            set_name(names.setdefault(id(directory), dict(directory.durable)), name, target)
        for directory in {id(each): each for each in touched}.values():
            fronts[id(directory)] -= 1
    return names


def tree_of(directory, names, random, way):
    """The tree of a directory whose names are those left."""
    tree = {}
    for name, target in names.get(id(directory), directory.durable).items():
        if isinstance(target, Directory):
            tree[name] = tree_of(target, names, random, way)
        else:
            tree[name] = left_of(target, random, way or random.choice(WAYS))
    return tree


def left_of(file, random, way):
    """The bytes that are left of a file."""
    if not file.changes or way == "lost":
        return file.synced
    if way == "kept":
        return bytes(file.kept)
    return {"front": front, "some": some, "sectors": sectors, "garbled": garbled, "holes": holes, "short": short}[way](file, random)


def front(file, random):
    """The first changes, and a part of the next one."""
    left = bytearray(file.synced)
    count = random.randint(0, len(file.changes) - 1)
    for place, written in file.changes[:count]:
        apply(left, place, written)
    place, written = file.changes[count]
    if written is None:
        apply(left, place, None if random.random() < 0.5 else b"")
    else:
        apply(left, place, written[: random.choice([0, 1, 15, 16, 17, random.randint(0, len(written)), len(written)])])
    return bytes(left)


def some(file, random):
    """Some of the changes, in their order."""
    left = bytearray(file.synced)
    for place, written in file.changes:
        if random.random() < 0.5:
            apply(left, place, written)
    return bytes(left)


def sectors(file, random):
    """Each sector as it was at one of the moments since the sync, and the file as long as at one of them."""
    moments, now = [file.synced], bytearray(file.synced)
    for place, written in file.changes:
        apply(now, place, written)
        moments.append(bytes(now))
    size = len(random.choice(moments))
    left = bytearray()
    for at in range(0, size, SECTOR):
        left += random.choice(moments)[at : at + SECTOR].ljust(min(SECTOR, size - at), b"\0")
    return fitted(file, left)


def garbled(file, random):
    """All changes, with other bytes in some of the places that they touched."""
    left, spans = bytearray(file.kept), touched(file)
    for _ in range(random.choice([1, 1, 2, 5])):
        first, end = random.choice(spans)
        at = random.randrange(first, max(end, first + 1))
        size = min(random.choice([1, 1, 2, 8, 64, 4096]), end - at)
        if size > 0 and at < len(left):
            put = random.choice([bytes(size), random.randbytes(size), b"\xff" * size])
            left[at : at + size] = put[: len(left) - at]
    return fitted(file, left)


def holes(file, random):
    """As long as it is, or was at most, with zeros, or bytes that nobody wrote, wherever something was touched."""
    size = random.choice([len(file.kept), greatest(file)])
    fill = random.choice([bytes(size), random.randbytes(size)])
    return fitted(file, bytearray(fill))


def short(file, random):
    """All changes, and the file ends somewhere in what they touched."""
    least = least_size(file)
    left = bytearray(file.kept)
    if least < len(left):
        del left[random.randint(least, len(left)) :]
    return fitted(file, left)


def touched(file):
    """The spans of places that changes since the sync touched."""
    spans, size = [], len(file.synced)
    for place, written in file.changes:
        if written is None:
            spans.append((min(place, size), max(place, size)))
        else:
            # (a gap before a write past the end is touched too)
            spans.append((min(place, size), place + len(written)))
        size = place if written is None else max(size, place + len(written))
    return spans


def greatest(file):
    """How long the file was at most since the sync."""
    return max([len(file.synced)] + [end for _first, end in touched(file)])


def least_size(file):
    """The place behind the last synced byte that nothing touched."""
    least = len(file.synced)
    for first, end in sorted(touched(file), key=lambda span: -span[1]):
        if first < least <= end:
            least = first
    return least


def fitted(file, left):
    """These bytes, with each synced byte that nothing touched in its place."""
    least = least_size(file)
    if len(left) < least:
        left += file.synced[len(left) : least]
    at = 0
    for first, end in sorted(touched(file)) + [(len(file.synced), 0)]:
        if at < first:
            stands = file.synced[at:first]
            left[at : at + len(stands)] = stands
        at = max(at, end)
    return bytes(left)
