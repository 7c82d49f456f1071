"""Damages to a directory's files: each takes the files (path to bytes) and changes them."""
from formats import MARK, read_file, spell_header, spell_record

ENDS = (".raftlog", ".rewrite", ".raftlog.reserved")


def pick(random, files):
    return random.choice(sorted(files)) if files else None


def number_in(path):
    try:
        return int(path.split("/")[1][:16])
    except ValueError:
        return 0


def place_in(random, bytes_):
    """A place of a file: in its header, near the end, near a record's front, or anywhere."""
    kind = random.randrange(4)
    if kind == 0:
        return random.randrange(min(len(bytes_), 69))
    if kind == 1:
        return len(bytes_) - 1 - random.randrange(min(len(bytes_), 30))
    records = read_file(bytes_, 0, True).records or []
    if kind == 2 and records:
        return min(random.choice(records).begin + random.randrange(16), len(bytes_) - 1)
    return random.randrange(len(bytes_))


def flip(random, files):
    path = pick(random, files)
    if path and files[path]:
        bytes_ = bytearray(files[path])
        for _ in range(random.choice([1, 1, 1, 3])):
            bytes_[place_in(random, files[path])] ^= 1 << random.randrange(8)
        files[path] = bytes(bytes_)


def overwrite(random, files):
    path = pick(random, files)
    if path and files[path]:
        at = place_in(random, files[path])
        count = random.choice([1, 4, 8, 16, 40])
        what = random.choice([b"\x00" * count, b"\xff" * count, random.randbytes(count)])
        files[path] = files[path][:at] + what + files[path][at + count:]


def cut(random, files):
    path = pick(random, files)
    if path and files[path]:
        files[path] = files[path][:random.choice([0, place_in(random, files[path]), place_in(random, files[path])])]


def grow(random, files):
    path = pick(random, files)
    if path:
        count = random.choice([1, 7, 15, 16, 17, 100, 3000])
        files[path] += random.choice([b"\x00" * count, b"\xff" * count, random.randbytes(count)])


def swap(random, files):
    one, other = pick(random, files), pick(random, files)
    if one:
        files[one], files[other] = files[other], files[one]


def copy(random, files):
    """A file's bytes under another number of the same kind, or another kind, or in the other directory."""
    path = pick(random, files)
    if path:
        directory, name = path.split("/")
        number, end = number_in(path), next((end for end in sorted(ENDS, key=len, reverse=True) if name.endswith(end)), ".raftlog")
        kind = random.randrange(4)
        if kind == 0:
            directory = "s" if directory == "d" else "d"
        elif kind == 1:
            end = random.choice(ENDS)
        else:
            number = max(number + random.choice([-2, -1, 1, 2, 5, 1000]), 0)
        files[f"{directory}/{number:016}{end}"] = files[path]


def drop(random, files):
    path = pick(random, files)
    if path:
        del files[path]


def move(random, files):
    path = pick(random, files)
    if path:
        before = dict(files)
        copy(random, files)
        if files != before and len(files) > len(before):
            del files[path]


def foreign(random, files):
    """A file that is none of the log's, or whose name nearly is."""
    directory = random.choice("dds")
    number = random.choice([0, 1, 2, 3, 5, 9999999999999999, 10 ** 15])
    names = ["LOCK", f"{number:016}.raftlog.tmp", f"{number:016}.rewrite.bak", f"{number:015}.raftlog", f"{number:016}",
             f"+{number % 10 ** 15:015}.raftlog", f"+{number % 10 ** 15:015}.rewrite", f"{number:016}x.raftlog", f"{number:017}.raftlog",
             f"-{number % 10 ** 15:015}.raftlog", f"{number:016}.raftlog", f"{number:016}.rewrite", f"{number:016}.raftlog.reserved",
             "0000000000000001.RAFTLOG", "000000000000000a.raftlog", "raftlog.raftlog.raftlog"]
    bytes_ = random.choice([b"", random.randbytes(50), spell_header(2), spell_header(1), files.get(pick(random, files), b"")])
    files[f"{directory}/{random.choice(names)}"] = bytes_


def header(random, files):
    """Another header."""
    path = pick(random, files)
    if path:
        bytes_, kind = files[path], random.randrange(5)
        body = bytes_[69:]
        if kind == 0:
            files[path] = spell_header(1) + body
        elif kind == 1:
            files[path] = bytes_[:53] + random.choice([0, 3, 4, 1 << 63, (1 << 64) - 1]).to_bytes(8, "big") + bytes_[61:]
        elif kind == 2:
            files[path] = spell_header(2, random.choice([1, 16, 64, 128, 4096, 1 << 40, 1 << 63, (1 << 64) - 1])) + body
        elif kind == 3:
            alignment = random.choice([72, 128, 256])
            files[path] = spell_header(2, alignment) + b"\x00" * (-69 % alignment) + body
        else:
            files[path] = spell_header(2) + body


def last_end(bytes_, number):
    end = read_file(bytes_, number, True).end
    return end if end is not None else len(bytes_)


def items(random):
    """Items that no engine would write, and some that it would."""
    group = random.choice([0, 1, 1, 2, 3, 7, (1 << 64) - 1])
    index = random.choice([0, 1, 2, 3, 4, 9, 1000, (1 << 64) - 2, (1 << 63)])
    return random.choice([
        [("entries", group, index, [1] * random.choice([1, 2, 5]))],
        [("entries", group, index, [0])], [("entries", group, index, [])],
        [("entries", 1, 1, [2, 3]), ("entries", 2, 5, [1]), ("entries", 1, 3, [4])],
        [("entries", 1, 1, [1] * 3), ("entries", 1, 9, [1])],
        [("clean", group)], [("compact", group, index)], [("compact", group, (1 << 64) - 1)],
        [("put", group, b"k", b"damaged")], [("put", group, b"__own", b"x")], [("put", group, b"", b"")],
        [("put", group, MARK, b"x")], [("put", group, MARK, bytes(8) + b"\x07")],
        [("put", 0, MARK, bytes(7) + b"\x01" + bytes([random.randrange(3)])), ("put", group, b"in", b"group")],
        [("put", 0, MARK, bytes(9)), ("put", 0, MARK, bytes(9))],
        [("del", group, b"k")], [("del", group, b"never")], [],
        [("clean", group), ("entries", group, index, [3]), ("put", group, b"k", b"v"), ("del", group, b"k")],
    ])


def record(random, files):
    """A record behind the others of a file: a good one with strange items, or one that lies."""
    path = pick(random, files)
    if not path:
        return
    bytes_, number = files[path], number_in(path)
    end = last_end(bytes_, number)
    version = read_file(bytes_, number, True).version
    signature = (number if version == 2 else 0) + random.choice([0] * 8 + [1, 1 << 32])
    said = items(random)
    block = b"e" * sum(sum(item[3]) for item in said if item[0] == "entries")
    made = spell_record(said, block, signature)
    kind = random.randrange(8)
    if kind == 0:
        made = spell_record(said, block, signature, count=random.choice([0, len(said) + 1, 1 << 63, (1 << 64) - 1]))
    elif kind == 1:
        made = spell_record(said, block, signature, kind=random.choice([1, 255]))
    elif kind == 2:
        length = random.choice([(1 << 56) - 1, 0, 16, 20, 21, len(made) + 1, len(made) - 1])
        made = (length * 256).to_bytes(8, "big") + random.choice([length, 16, 15, 0, (1 << 64) - 1]).to_bytes(8, "big") + made[16:]
    elif kind == 3 and block:
        made = made[:16] + b"\x21" + made[17:]
    rest = random.choice([bytes_[end:], b""])
    if kind == 4 and len(rest) >= len(made):
        rest = rest[len(made):]
    files[path] = bytes_[:end] + made + rest


def part(random, files):
    """Some records of a file are lost, doubled or turned around."""
    path = pick(random, files)
    if path:
        bytes_ = files[path]
        records = read_file(bytes_, number_in(path), False).records
        if records:
            pieces = [bytes_[one.begin:one.end] for one in records]
            kind = random.randrange(4)
            at = random.randrange(len(pieces))
            if kind == 0:
                del pieces[at]
            elif kind == 1:
                pieces.insert(at, pieces[at])
            elif kind == 2:
                random.shuffle(pieces)
            else:
                pieces += pieces
            files[path] = bytes_[:records[0].begin] + b"".join(pieces) + bytes_[records[-1].end:]


DAMAGES = [(flip, 6), (overwrite, 3), (cut, 4), (grow, 2), (swap, 2), (copy, 3), (drop, 3), (move, 2), (foreign, 3), (header, 3),
           (record, 8), (part, 2)]


def damaged(random, files):
    """The files with some damages, and their names."""
    files, names = dict(files), []
    for _ in range(random.choice([0, 1, 1, 1, 1, 2, 2, 3, 5])):
        kind = random.choices([one for one, _ in DAMAGES], [weight for _, weight in DAMAGES])[0]
        kind(random, files)
        names.append(kind.__name__)
    return files, names
