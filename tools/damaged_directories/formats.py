"""A log file's bytes, written and read by the rules of docs/FORMATS.md alone: nothing here is taken from the crates."""
import zlib
from dataclasses import dataclass, field

MAGIC = b"RAFT-LOG-FILE-HEADER-9986AB3E47F320B394C8E84916EB0ED5"
LIMIT = 1 << 64
MARK = b"__\x01"


class Fault(Exception):
    """What is wrong with bytes: `corruption` or `codec`."""

    def __init__(self, kind, text):
        super().__init__(f"{kind}: {text}")
        self.kind = kind


def corrupt(text):
    return Fault("corruption", text)


def var_number(number):
    """A number in its shortest spelling."""
    spelled = bytearray()
    while number >= 128:
        spelled.append(number % 128 + 128)
        number //= 128
    spelled.append(number)
    return bytes(spelled)


class Source:
    """Bytes that are read from their front on."""

    def __init__(self, bytes_):
        self.bytes, self.at = bytes_, 0

    def left(self):
        return len(self.bytes) - self.at

    def take(self, count):
        if self.left() < count:
            raise Fault("codec", "UnexpectedEof")
        taken = self.bytes[self.at:self.at + count]
        self.at += count
        return taken

    def number(self):
        """A var number."""
        value = 0
        for place in range(10):
            byte = self.take(1)[0]
            if place == 9 and byte > 1:
                raise Fault("codec", "InvalidData")
            value |= (byte & 127) << (7 * place)
            if byte < 128:
                return value
        raise Fault("codec", "InvalidData")


# Items: ("entries", group, first, lengths), ("clean", group), ("compact", group, index), ("put", group, key, value),
# ("del", group, key).

def spell_item(item):
    """An item's bytes."""
    kind, group, *rest = item
    spelled = var_number(group)
    if kind == "entries":
        first, lengths = rest
        spelled += b"\x01" + var_number(len(lengths))
        if lengths:
            spelled += var_number(first) + b"".join(map(var_number, lengths))
    elif kind == "clean":
        spelled += b"\x02\x01"
    elif kind == "compact":
        spelled += b"\x02\x02" + var_number(rest[0])
    elif kind == "put":
        key, value = rest
        spelled += b"\x03\x01" + var_number(len(key)) + key + var_number(len(value)) + value
    else:
        spelled += b"\x03\x02" + var_number(len(rest[0])) + rest[0]
    return spelled


def spell_record(items, block, signature, kind=0, count=None):
    """A record: of these items, with these entries' bytes, signed for a file (0 for the first version)."""
    entries = block + zlib.crc32(block).to_bytes(4, "little") if block else b""
    listed = var_number(len(items) if count is None else count) + b"".join(map(spell_item, items))
    footer = listed + (zlib.crc32(listed) ^ (signature % (1 << 32))).to_bytes(4, "little")
    place = 16 + len(entries)
    return ((place + len(footer)) * 256 + kind).to_bytes(8, "big") + place.to_bytes(8, "big") + entries + footer


def spell_header(version, alignment=0):
    """A file's header."""
    return MAGIC + version.to_bytes(8, "big") + (alignment.to_bytes(8, "big") if version == 2 else b"")


def read_header(bytes_):
    """A file's version, its alignment, and where the header ends."""
    if bytes_[:53] != MAGIC:
        raise corrupt("log file magic header mismatch")
    if len(bytes_) < 61:
        raise Fault("codec", "UnexpectedEof")
    version = int.from_bytes(bytes_[53:61], "big")
    if version not in (1, 2):
        raise corrupt(f"unrecognized log file version: {version}")
    if version == 1:
        return 1, 0, 61
    if len(bytes_) < 69:
        raise corrupt("missing header payload")
    return 2, int.from_bytes(bytes_[61:69], "big"), 69


def read_item(source):
    """The next item."""
    group = source.number()
    kind = source.take(1)[0]
    if kind == 1:
        count = source.number()
        if count == 0:
            return ("entries", group, 0, [])
        first = source.number()
        if first + count - 1 > LIMIT - 2:
            raise corrupt("Entry index past the limit")
        lengths = []
        for _ in range(count):
            length = source.number()
            if length >= 1 << 32:
                raise corrupt("Entry length past the limit")
            lengths.append(length)
        return ("entries", group, first, lengths)
    if kind == 2:
        command = source.take(1)[0]
        if command == 1:
            return ("clean", group)
        if command == 2:
            return ("compact", group, source.number())
        raise corrupt(f"Unrecognized command type: {command}")
    if kind == 3:
        operation = source.take(1)[0]
        if operation not in (1, 2):
            raise corrupt(f"Unrecognized operation type: {operation}")
        key = source.take(source.number())
        if operation == 2:
            return ("del", group, key)
        return ("put", group, key, source.take(source.number()))
    raise corrupt(f"Unrecognized item type: {kind}")


def is_header(bytes_):
    """Whether bytes begin with a record's header."""
    try:
        read_record_header(bytes_)
    except Fault:
        return False
    return True


def read_record_header(bytes_):
    """Where a record's footer begins, and how long it is."""
    if len(bytes_) < 16:
        raise corrupt(f"Log batch header too short: {len(bytes_)}")
    word = int.from_bytes(bytes_[:8], "big")
    footer = int.from_bytes(bytes_[8:16], "big")
    if word % 256:
        raise corrupt(f"Unsupported compression type: {word % 256}")
    if footer < 16:
        raise corrupt(f"Log batch footer inside the header: {footer}")
    if footer > word // 256:
        raise corrupt(f"Log batch footer past the end: {footer}")
    return footer, word // 256


@dataclass
class Record:
    """A record's items, where it begins and ends, and whether its entry block is whole."""
    items: list
    begin: int
    end: int
    block: bytes = b""
    is_whole: bool = True


def read_record(bytes_, at, signature):
    """The record at a place, by its header and its footer."""
    footer, length = read_record_header(bytes_[at:at + 16])
    if len(bytes_) - at < length:
        raise corrupt(f"Log batch past the end of the input: {length}")
    tail = bytes_[at + footer:at + length]
    if len(tail) < 5:
        raise corrupt(f"Log batch footer too short: {len(tail)}")
    if zlib.crc32(tail[:-4]) ^ (signature % (1 << 32)) != int.from_bytes(tail[-4:], "little"):
        raise corrupt("Log batch footer checksum mismatch")
    source = Source(tail[:-4])
    items = [read_item(source) for _ in range(source.number())]
    if source.left():
        raise corrupt(f"Bytes after the last log item: {source.left()}")
    block = bytes_[at + 16:at + footer]
    lengths = sum(sum(item[3]) for item in items if item[0] == "entries")
    if lengths != (len(block) - 4 if block else 0) or lengths >= 1 << 32:
        raise corrupt("Entry lengths do not add up to the entry block")
    return Record(items, at, at + length, block, is_block(block))


def is_block(block):
    """Whether an entry block is read: there is none, or its checksum is right."""
    return not block or zlib.crc32(block[:-4]) == int.from_bytes(block[-4:], "little")


@dataclass
class FileRead:
    """What a file reads as: its version and alignment, its records, where the last one ends (or its header; none where it has none), and what is wrong behind. Or a foreign record follows."""
    version: int = 1
    alignment: int = 0
    records: list = field(default_factory=list)
    end: int = None
    fault: Fault = None
    is_foreign: bool = False


def place_of_record(bytes_, at, alignment):
    """Where the record behind a place is looked for: behind padding, if no header is there."""
    padding = -at % alignment if alignment else 0
    left = len(bytes_) - at
    if padding == 0 or left < padding or left < 16 or is_header(bytes_[at:at + 16]):
        return at
    return at + padding if bytes_[at] == 0 and bytes_[at + padding - 1] == 0 else at


def is_foreign(bytes_, at, signature):
    """Whether the record at a place is whole by its length and its footer's checksum, but its compression isn't 0."""
    if len(bytes_) - at < 16 or not bytes_[at + 7]:
        return False
    length, footer = int.from_bytes(bytes_[at:at + 7], "big"), int.from_bytes(bytes_[at + 8:at + 16], "big")
    if not 16 <= footer <= length <= len(bytes_) - at or length - footer < 5:
        return False
    tail = bytes_[at + footer:at + length]
    return zlib.crc32(tail[:-4]) ^ (signature % (1 << 32)) == int.from_bytes(tail[-4:], "little")


def read_file(bytes_, number, is_last):
    """What a file of a queue reads as."""
    read = FileRead()
    try:
        read.version, read.alignment, read.end = read_header(bytes_)
    except Fault as fault:
        read.fault = fault
        return read
    signature = number if read.version == 2 else 0
    while read.end < len(bytes_):
        try:
            at = place_of_record(bytes_, read.end, read.alignment)
            if at == len(bytes_):
                record = None
                break
            record = read_record(bytes_, at, signature)
            if is_last and not record.is_whole:
                raise corrupt("Entry block checksum mismatch")
        except Fault as fault:
            read.fault = fault
            break
        read.records.append(record)
        read.end = record.end
    if not is_last and read.records and not read.records[-1].is_whole:
        record = read.records.pop()
        read.end = read.records[-1].end if read.records else (69 if read.version == 2 else 61)
        read.fault = corrupt("Entry block checksum mismatch")
    read.is_foreign = is_foreign(bytes_, place_of_record(bytes_, read.end, read.alignment), signature)
    if is_last and read.alignment and not read.records:
        fault = corrupt("log file header has an alignment, and no record after it")
        return FileRead(fault=fault, is_foreign=read.is_foreign)
    return read
