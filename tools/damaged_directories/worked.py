"""The model against bytes that were worked by hand: those of docs/FORMATS.md, and directories told in the tests."""
import zlib

from formats import Fault, read_file, spell_header, spell_item, spell_record, var_number
from histories import Settings
from meaning import Meaning, Refused

SEVEN = bytes.fromhex("0000000000002400 0000000000000019 6162636465 65d88785 01070102050203 9af4831c")
SEVEN_IN_ONE = SEVEN[:-4] + bytes.fromhex("9bf4831c")
CLEAN = bytes.fromhex("0000000000001800 0000000000000010 01010201")


def bytes_that_stand():
    """The worked records of the page on formats."""
    assert zlib.crc32(b"123456789") == 0xCBF43926
    items = [("entries", 7, 5, [2, 3])]
    assert spell_record(items, b"abcde", 0) == SEVEN and spell_record(items, b"abcde", 1) == SEVEN_IN_ONE
    clean = spell_record([("clean", 1)], b"", 1)
    assert clean == CLEAN + bytes.fromhex("5b800bdd") and spell_record([("clean", 1)], b"", 0) == CLEAN + bytes.fromhex("5a800bdd")
    one, two, later = (read_file(spell_header(2) + clean, number, True) for number in (1, 2, (1 << 32) + 1))
    assert [record.items for record in one.records] == [[("clean", 1)]] and not one.fault and later.records
    assert not two.records and two.fault.kind == "corruption" and two.end == 69
    assert len(spell_header(1)) == 61 and len(spell_header(2)) == 69
    assert var_number(300) == b"\xac\x02" and var_number((1 << 64) - 1) == b"\xff" * 9 + b"\x01"
    assert spell_item(("compact", 1, 300)) == b"\x01\x02\x02\xac\x02"


def fault_of(bytes_):
    """The kind and the text of what is wrong with the last file that has these bytes behind its header."""
    fault = read_file(spell_header(2) + bytes_, 1, True).fault
    return str(fault)


def refusals():
    """Faults in their order."""
    assert fault_of(SEVEN_IN_ONE) == "None" and fault_of(b"") == "None"
    assert fault_of(SEVEN) == "corruption: Log batch footer checksum mismatch"
    assert fault_of(bytes(15)) == "corruption: Log batch header too short: 15"
    assert fault_of(bytes(16)) == "corruption: Log batch footer inside the header: 0"
    assert fault_of(SEVEN_IN_ONE[:-1]) == "corruption: Log batch past the end of the input: 36"
    assert fault_of(SEVEN_IN_ONE[:7] + b"\x01" + SEVEN_IN_ONE[8:]) == "corruption: Unsupported compression type: 1"
    assert fault_of(SEVEN_IN_ONE[:16] + b"x" + SEVEN_IN_ONE[17:]) == "corruption: Entry block checksum mismatch"
    assert fault_of(b"\xff" * 7 + b"\0" + b"\0" + b"\xff" * 7) == f"corruption: Log batch past the end of the input: {(1 << 56) - 1}"
    assert fault_of(spell_record([], b"", 1, count=1 << 63)) == "codec: UnexpectedEof"
    assert fault_of(spell_record([("entries", 1, (1 << 64) - 1, [1])], b"e", 1)) == "corruption: Entry index past the limit"
    for bytes_, text in ((b"", "corruption: log file magic header mismatch"), (spell_header(2)[:60], "codec: UnexpectedEof"),
                         (spell_header(2)[:68], "corruption: missing header payload")):
        assert str(read_file(bytes_, 1, True).fault) == text


def means(files, mode="tail", spill="-"):
    """The groups that files of Append mean, or why they are refused."""
    try:
        meaning = Meaning(files, Settings(mode=mode, spill=spill))
    except Refused as why:
        return why.kind
    return {group: (of.entries, of.keys) for group, of in meaning.groups.items() if of.entries or of.keys}


def run(group, first, count, number):
    return spell_record([("entries", group, first, [1] * count)], b"e" * count, number)


def rows():
    """Directories worked by hand."""
    def log(*numbered, end=".raftlog", directory="d"):
        return {f"{directory}/{number:016}{end}": spell_header(2) + bytes_ for number, bytes_ in numbered}
    ends = {5: b"ab", 6: b"cde"}
    seven = {7: (ends, {})}
    assert means(log((1, SEVEN_IN_ONE))) == seven
    assert means(log((1, run(1, 1, 2, 1) + run(1, 5, 2, 1)))) == "hole"
    long = b"\xff" * 7 + b"\0" + b"\0" + b"\xff" * 7
    assert means(log((1, SEVEN_IN_ONE + long))) == seven and means(log((1, SEVEN_IN_ONE + long)), "absolute") == "corruption"
    assert means({**log((1, b""), (2, b"x")), **log((2, spell_record([("clean", 1)], b"", 2)), directory="s")}, spill="s") == {}
    foreign = SEVEN_IN_ONE[:7] + b"\x01" + SEVEN_IN_ONE[8:]
    for mode in ("absolute", "tail", "any"):
        assert means(log((1, SEVEN_IN_ONE + foreign + SEVEN_IN_ONE)), mode) == "corruption"
        assert means(log((1, foreign), (2, b"")), mode) == "corruption"
    assert means(log((1, SEVEN_IN_ONE + foreign[:-1]))) == seven
    aligned = spell_header(2, 128) + bytes(128 - 69) + SEVEN_IN_ONE
    assert means({"d/0000000000000001.raftlog": aligned}) == "invalid-argument"
    signed = {"d/+000000000000001.raftlog": spell_header(2) + SEVEN_IN_ONE}
    assert means(signed) == seven and means({**log((1, b"")), **signed}) == seven
    assert means({"d/0000000000000001.a.raftlog": b""}) == "corruption"
    assert means({"d/0000000000000001.raftlog": b"", "d/notes": b"x"}) == {}
    # Rewrite [1..10], Append [4..5] and a Compact to 3: of Rewrite 3 stands, then 4 and 5
    both = {**log((1, run(1, 1, 10, 1)), end=".rewrite"), **log((1, run(1, 4, 2, 1) + spell_record([("compact", 1, 3)], b"", 1)))}
    assert set(means(both)[1][0]) == {3, 4, 5}
    # a gap between the two drops what was rewritten; a Clean in Append all of it
    gap = {**log((1, run(1, 1, 3, 1)), end=".rewrite"), **log((1, run(1, 9, 1, 1)))}
    assert set(means(gap)[1][0]) == {9}
    clean = {**log((1, run(1, 1, 3, 1)), end=".rewrite"), **log((1, spell_record([("clean", 1)], b"", 1)))}
    assert means(clean) == {}
    # an atomic group counts at its end, and not at all without one
    begin, end = (spell_record([("put", 0, b"__\x01", bytes(7) + b"\x01" + bytes([status])), ("put", 2, bytes([97 + status]), b"v")], b"", 1)
                  for status in (0, 2))
    assert means(log((1, begin + end), end=".rewrite")) == {2: ({}, {b"a": b"v", b"c": b"v"})}
    assert means(log((1, begin), end=".rewrite")) == means(log((1, end), end=".rewrite")) == {}


def main():
    bytes_that_stand()
    refusals()
    rows()
    print("the model is as worked by hand")


if __name__ == "__main__":
    main()
