"""What a directory of log files means: which files are read, what damage is refused, and each group's entries and keys.

A slow model by the rules of docs/FORMATS.md and docs/model: the last word of either queue, Append's over Rewrite's. Nothing
here is taken from the crates.
"""
from formats import MARK, read_file
from player import shown

ENDS = {"append": ".raftlog", "rewrite": ".rewrite", "reserved": ".raftlog.reserved"}
MOST = 10 ** 16


class Refused(Exception):
    """Why a log isn't opened."""

    def __init__(self, kind):
        super().__init__(kind)
        self.kind = kind


def number_of(name, end):
    """The number that a name says, or none."""
    front = name[:16]
    digits = front[1:] if front[:1] == "+" else front
    if len(name) <= 16 or not name.endswith(end) or not (digits.isascii() and digits.isdigit()):
        return None
    return int(digits)


def files_of(files, directories, kind):
    """The files of a kind that are kept, in order, each as its number and its path; the others are below the last break."""
    found = []
    for place, directory in enumerate(directories):
        for path in sorted(files):
            name = path[len(directory) + 1:]
            if not path.startswith(directory + "/") or "/" in name:
                continue
            number = number_of(name, ENDS[kind])
            if number is None:
                continue
            if name not in (f"{number:016}{ENDS[kind]}", f"+{number:015}{ENDS[kind]}"):
                raise Refused("corruption")
            found.append((number, place, name.startswith("+"), path))
    found.sort()
    first = max([at for at in range(1, len(found)) if found[at][0] != found[at - 1][0] + 1], default=0)
    return [(number, path) for number, _, _, path in found[first:]]


def is_tolerated(mode, is_last):
    return mode == "any" or (mode == "tail" and is_last)


class Group:
    """A group's entries (index to bytes, or none where they can't be read) and keys, and what was said of what stood before."""

    def __init__(self):
        self.entries, self.keys = {}, {}
        self.is_clean, self.compact, self.least, self.gone = False, 0, None, set()
        self.is_told = False

    def take(self, item, record, start, is_append):
        """An item of a record, whose entries begin at a place of the block."""
        self.is_told = True
        kind = item[0]
        if kind == "entries":
            self.take_run(item, record, start, is_append)
        elif kind == "clean":
            self.__init__()
            self.is_clean = True
        elif kind == "compact":
            self.entries = {index: entry for index, entry in self.entries.items() if index >= item[2]}
            self.compact = max(self.compact, item[2])
        elif kind == "put":
            self.keys[item[2]] = item[3]
        else:
            self.keys.pop(item[2], None)
            self.gone.add(item[2])

    def take_run(self, item, record, start, is_append):
        first, lengths = item[2], item[3]
        if not lengths:
            return
        if self.entries and first > max(self.entries) + 1:
            if is_append:
                raise Refused("hole")
            self.entries.clear()
        self.entries = {index: entry for index, entry in self.entries.items() if index < first}
        for index, length in enumerate(lengths, first):
            self.entries[index] = record.block[start:start + length] if record.is_whole else None
            start += length
        self.least = first if self.least is None else min(self.least, first)

    def over(self, below, is_append):
        """This group over what stood before."""
        if self.is_clean:
            return self
        whole = Group()
        whole.entries = {index: entry for index, entry in below.entries.items()
                         if index >= self.compact and (self.least is None or index < self.least)}
        if self.entries and whole.entries and max(whole.entries) + 1 < min(self.entries):
            if is_append:
                raise Refused("hole")
            whole.entries.clear()
        whole.entries.update(self.entries)
        whole.keys = {key: value for key, value in below.keys.items() if key not in self.gone}
        whole.keys.update(self.keys)
        whole.is_clean, whole.compact = below.is_clean, max(below.compact, self.compact)
        whole.least = min((least for least in (below.least, self.least) if least is not None), default=None)
        whole.gone = below.gone | self.gone
        whole.is_told = below.is_told or self.is_told
        return whole


def is_mark(item):
    return item[0] == "put" and item[1] == 0 and item[2] == MARK


def mark_of(record):
    """The number and the status of a record's mark; none without one."""
    marks = [item[3] for item in record.items if is_mark(item)]
    if not marks:
        return None
    if len(marks) > 1 or len(marks[0]) != 9 or marks[0][8] > 2:
        raise Refused("corruption")
    return int.from_bytes(marks[0][:8], "big"), marks[0][8]


class Part:
    """What the records of a part of a queue say, one behind the other; the whole queue is the one part of one worker."""

    def __init__(self, is_append):
        self.is_append, self.groups = is_append, {}
        # what the part does with an atomic group that may be open before it, and the groups that it leaves open
        self.heads, self.open = {}, {}

    def take(self, record):
        mark = None if self.is_append else mark_of(record)
        if mark is None:
            self.count(record)
        elif mark[1] == 0:
            self.open.pop(mark[0], None)
            self.open[mark[0]] = [record]
            self.head(mark[0], "anew", [])
        elif mark[0] not in self.open:
            self.head(mark[0], ("on", "ends")[mark[1] - 1], [record])
        else:
            self.open[mark[0]].append(record)
            if mark[1] == 2:
                self.count(*self.open.pop(mark[0]))

    def head(self, number, does, records):
        before, begun = self.heads.get(number, ("on", []))
        if before == "on":
            self.heads[number] = (does, begun + records)

    def count(self, *records):
        for record in records:
            start = 0
            for item in record.items:
                if not is_mark(item):
                    self.groups.setdefault(item[1], Group()).take(item, record, start, self.is_append)
                if item[0] == "entries":
                    start += sum(item[3])

    def then(self, later):
        """The next part behind this one."""
        still = {}
        for number, records in self.open.items():
            does, more = later.heads.pop(number, ("on", []))
            if does == "on":
                still[number] = records + more
            elif does == "ends":
                self.count(*records, *more)
        self.open = {**still, **later.open}
        for number, (does, records) in later.heads.items():
            self.head(number, does, records)
        for group, of in later.groups.items():
            self.groups[group] = of.over(self.groups.get(group, Group()), self.is_append)


def share(workers, append, rewrite):
    """How many workers each queue gets, by how many files it has."""
    workers = min(workers, append + rewrite)
    if not append or not rewrite:
        return workers, workers
    share = max(1, workers * append // (append + rewrite))
    return share, max(1, workers - share)


class Meaning:
    """What a directory means in a recovery mode: the groups, which files are cut where, and which are left; or it is refused."""

    def __init__(self, files, settings, workers=1):
        self.files, self.settings = files, settings
        self.kept = {kind: files_of(files, settings.directories(), kind) for kind in ENDS}
        self.cuts, self.ends, parts, reads, refused = {}, {}, [], [], []
        shares = share(workers, len(self.kept["append"]), len(self.kept["rewrite"]))
        for kind, workers in zip(("append", "rewrite"), shares):
            try:
                part, read = self.read_queue(self.kept[kind], kind == "append", workers)
                parts.append(part)
                reads += read
            except Refused as why:
                refused.append(why)
        if refused:
            raise refused[0]
        if any(read.alignment for read in reads):
            raise Refused("invalid-argument")
        append, rewrite = parts
        rewrite.then(self.over_all(append))
        self.groups = rewrite.groups
        self.is_numbered()

    @staticmethod
    def over_all(append):
        """Append's part, to come over Rewrite's."""
        append.heads, append.open = {}, {}
        return append

    def read_queue(self, kept, is_append, workers):
        """Reads the files of a queue, in parts."""
        reads, whole = [], Part(is_append)
        size = max(1, -(-len(kept) // workers)) if workers else 1
        for begin in range(0, len(kept), size):
            part = Part(is_append)
            for number, path in kept[begin:begin + size]:
                is_last = (number, path) == kept[-1]
                read = read_file(self.files[path], number, is_last)
                if read.is_foreign:
                    raise Refused("corruption")
                if read.fault and not is_tolerated(self.settings.mode, is_last):
                    raise Refused(read.fault.kind)
                for record in read.records:
                    part.take(record)
                self.ends[path] = read
                if read.fault:
                    self.cuts[path] = read.end or 0
                reads.append(read)
            whole.then(part)
        return whole, reads

    def is_numbered(self):
        """Whether each file that is to be made has a number."""
        of = self.settings
        room = of.purge // of.target * 3 // 2 if of.recycle and of.version == 2 else 0
        room = max(room - len(self.kept["append"]), 0)
        self.reserved = min(room if of.prefill else 0, room)
        missing = self.reserved - len(self.kept["reserved"])
        last = self.kept["reserved"][-1][0] if self.kept["reserved"] else 0
        if missing > 0 and last + missing >= MOST:
            raise Refused("number-range")

    def tells(self, told):
        """Whether the program tells this map, and no group besides that could have gone."""
        some = {group for group, of in self.groups.items() if of.entries or of.keys}
        may = {group for group, of in self.groups.items() if of.is_told}
        return some <= set(told) <= may | some and all(tells_group(self.groups[group], told[group]) for group in told)


def tells_group(of, told):
    """Whether the program tells a group so."""
    entries = {index: "!corruption" if bytes_ is None else shown(bytes_) for index, bytes_ in of.entries.items()}
    together = "corruption" if None in of.entries.values() else ""
    return told == [entries, together, {key: shown(value) for key, value in of.keys.items()}]
