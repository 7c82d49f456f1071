"""The harness is tried with the store of `fake_node` and the copies of `fake_operator`: right ones pass, wrong ones are found out."""
import sys
import time
from random import Random

from cutting import Cutter
from denying import Denier
from forking import Forker
from holding import Holder
from killing import Killer
from node import Node, settings
from refusing import Refuser
from resyncing import Resyncer
from running import HERE
from trial import Room

FAKE = [sys.executable, "-S", f"{HERE}/fake_node"]
OPERATOR = [sys.executable, "-S", f"{HERE}/fake_operator"]
COPIED = ["no-sync", "no-names", "no-home", "leaves-out", "cuts", "passes-over"]
HELD = ["holds-files", "holds-names"]
CUT = ["no-sync", "no-names", "answers-first", "renames-first", "stale", "no-front", "no-load-sync"]


def cuts(room, seconds, until_wrong, drops=()):
    """Cuts for so long, or until something is wrong."""
    cutter, end, number = Cutter(room, Random(1), settings, 20, drops), time.time() + seconds, 0
    while time.time() < end and not (until_wrong and cutter.wrong):
        cutter.history(f"history {number}", count=20)
        number += 1
    return cutter, "cuts"


def refusals(room, seconds, until_wrong):
    """Refuses for so long, or until something is wrong."""
    end, number = time.time() + seconds, 1
    refuser = Refuser(room, Random(1), settings, 5, end)
    while time.time() < end and not (until_wrong and refuser.wrong):
        refuser.run(f"run {number}", number)
        number += 1
    return refuser, "faults"


def failed_syncs(room, seconds, until_wrong):
    """Fails syncs for so long, or until something is wrong."""
    end, number = time.time() + seconds, 1
    resyncer = Resyncer(room, Random(1), settings, 5, 6, end, sticks=True)
    while time.time() < end and not (until_wrong and resyncer.wrong):
        resyncer.run(f"run {number}", number)
        number += 1
    return resyncer, "cuts"


def kills(room, seconds, _until_wrong):
    """Kills for so long."""
    killer, end = Killer(room, Random(1), settings, 0.3), time.time() + seconds
    while time.time() < end:
        killer.directory(f"directory {killer.counts['directories']}", 20)
    return killer, "kills"


def copies(room, seconds, until_wrong, operator=None):
    """Copies for so long, or until something is wrong."""
    end, number = time.time() + seconds, 0
    forker = Forker(room, Random(1), settings, 10, OPERATOR + (operator or []))
    while time.time() < end and not (until_wrong and forker.wrong):
        forker.log(f"log {number}")
        number += 1
    return forker, "copies"


def lives(room, seconds, until_wrong):
    """Lives for so long, or until something is wrong."""
    end, number = time.time() + seconds, 0
    holder = Holder(room, Random(1), settings, OPERATOR)
    while time.time() < end and not (until_wrong and holder.wrong):
        holder.life(f"life {number}", 3, 20)
        number += 1
    return holder, "moments"


def denials(room, seconds, until_wrong):
    """Denies for so long, or until something is wrong."""
    end, number = time.time() + seconds, 0
    denier = Denier(room, Random(1), settings, 10, None)
    while time.time() < end and not (until_wrong and denier.wrong):
        denier.log(f"log {number}")
        number += 1
    return denier, "trials"


def try_fakes(path, library, seconds):
    """Tries each store; how many were judged wrongly."""
    failed = 0
    trials = [("right", each, False, {}) for each in (kills, cuts, refusals, failed_syncs, lives, denials)]
    trials += [(wrong, cuts, True, {}) for wrong in CUT] + [("passes-over", refusals, True, {}), ("no-write-back", failed_syncs, True, {})]
    trials += [("in-place", failed_syncs, True, {})]
    trials += [(wrong, lives, True, {}) for wrong in HELD] + [("takes-leave", denials, True, {})]
    trials += [("right", cuts, True, {"drops": [kind]}) for kind in ("bytes", "names")]
    trials += [("right", copies, False, {})]
    trials += [("right", copies, True, {"operator": ["--wrong", wrong]}) for wrong in COPIED]
    for wrong, play, is_wrong, more in trials:
        room = Room(path, Node(FAKE + ([] if wrong == "right" else ["--wrong", wrong])), library)
        tried, word = play(room, seconds, is_wrong, **more)
        dropped = f", syncs of {more['drops'][0]} dropped" if "drops" in more else ""
        dropped += f", copied wrongly: {more['operator'][1]}" if "operator" in more else ""
        is_well = bool(tried.wrong) == is_wrong
        failed += not is_well
        print(f"{wrong}{dropped}: {tried.counts[word]} {word}, {len(tried.wrong)} wrong{'' if is_well else ': NOT AS IT SHOULD BE'}", flush=True)
        if not is_well:
            print("\n".join(tried.wrong[:3]), flush=True)
    return failed
