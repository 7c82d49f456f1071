"""Sessions that are played with a fault at each of their calls in turn, and what shows in the end what is stored."""

OVERWRITTEN = """open 1
round
append 1 1 0 0 1: 1:
end
round
append 1 2 1 1 3 2: 2:
end
crash last
open 4
round
read 1 1 4
end
"""

COMPACTED = (
    OVERWRITTEN
    + """round
compact 1 2
end
purge
close
open 1
round
read 1 2 4
read 1 3 4
end
"""
)

TWO_GROUPS = """open 1
round
append 1 1 0 0 1:
vote 2 1 1 0 0
end
"""

REWRITTEN = """open 1
round
append 1 1 0 0 0 1: 1: 1: 1: 1: 1: 1: 1: 1: 1: 1: 1: 1: 1: 1: 1: 1: 1: 1: 1:
end
rewrite-append
round
append 1 2 14 1 16 2: 2:
compact 1 16
end
rewrite-append
close
open 1
round
status 1
end
"""

RETIRED = """open 1
round
append 1 1 0 0 1: 1:
vote 2 4 1 0 0
end
rewrite-append
round
retire 1
vote 2 5 2 0 0
end
rewrite-append
rewrite-rewrite
close
open 2
round
status 1
end
"""

NARROW = """config
dir = "raft"
target-file-size = 200
purge-threshold = 400
purge-rewrite-threshold = 200
purge-rewrite-garbage-ratio = 100
end
open 1
round
append 1 1 0 0 1 1:aa 1:bb
vote 2 3 1 0 0
end
round
append 1 1 2 1 2 1:cc
vote 2 4 2 0 0
append 3 1 0 0 0 1:dd
end
purge
round
compact 1 2
vote 2 5 3 0 0
end
rewrite-append
round
append 1 2 3 1 4 2:ee
vote 2 6 1 0 0
retire 3
end
purge
rewrite-rewrite
close
open 4
round
append 1 2 4 2 5 2:ff
vote 2 7 1 0 0
end
"""

RUNS = {
    "a later leader's entries": OVERWRITTEN,
    "a compacted log": COMPACTED,
    "a round of two groups": TWO_GROUPS,
    "rewritten entries": REWRITTEN,
    "a retired voter": RETIRED,
    "small files": NARROW,
    "small files, none used again": NARROW.replace("end\n", "enable-log-recycle = false\nend\n", 1),
}

SHOWN = """round
status 1
read 1 1 3
read 1 3 5
status 2
status 3
end
"""


def parts(session):
    """The settings' lines of a session, and its events as texts."""
    settings, events, lines = "", [], session.splitlines(keepends=True)
    if lines[0] == "config\n":
        end = lines.index("end\n") + 1
        settings, lines = "".join(lines[:end]), lines[end:]
    while lines:
        end = lines.index("end\n") + 1 if lines[0] == "round\n" else 1
        events.append("".join(lines[:end]))
        lines = lines[end:]
    return settings, events
