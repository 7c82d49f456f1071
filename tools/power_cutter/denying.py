"""Starts a program where it has no leave: directories and files that it may not read or write. It says so, and changes nothing.

Modes deny root nothing, so where the harness runs as root the program runs as root without its privileges (`setpriv`).
"""
import os
import re
import shutil
import stat
import subprocess
from collections import Counter

from disk import read_tree
from running import Fault, Running

IS_ROOT = os.geteuid() == 0
WITHOUT_PRIVILEGES = ["setpriv", "--inh-caps=-all", "--bounding-set=-all"] if IS_ROOT else []
NOBODY = 65534
# what the device keeps beside a log's files
BESIDE = {"LOCK", "RESERVE"}
REFUSED = {"program": 1, "operator": 3}
NAMED = re.compile("[\"'](log[^\"']*)[\"']")
TASKS = [["dump", "log"], ["check", "log"], ["stat", "log"], ["unpad", "log"], ["fork", "log", "copy"]]


def of_directory(mode):
    """The log's directory has a mode."""
    return lambda log, _random: os.chmod(log, mode)


def of_files(mode):
    """Each file of the log has a mode."""
    return lambda log, _random: [os.chmod(file, mode) for file in files_of(log)]


def of_one_file(mode):
    """One file of the log has a mode."""
    return lambda log, random: os.chmod(random.choice(files_of(log)), mode)


def of_another(log, _random):
    """The log's directory is another user's."""
    os.chown(log, NOBODY, NOBODY)
    os.chmod(log, 0o700)


def files_of_another(log, _random):
    """The log's files are another user's, who lets all read them."""
    for file in files_of(log):
        os.chown(file, NOBODY, NOBODY)
        os.chmod(file, 0o644)


def mount_read_only(log, _random):
    """The log's directory is mounted read-only."""
    subprocess.run(["mount", "--bind", log, log], check=True)
    subprocess.run(["mount", "-o", "remount,bind,ro", log], check=True)


# What is denied, how, the path that is to be named, and whether all may still be read.
DENIALS = [
    ("a directory of mode 0", of_directory(0), "log", False),
    ("a directory that may only be written", of_directory(0o300), "log", False),
    ("a directory of which only the names may be read", of_directory(0o400), "log/", False),
    ("a directory that may not be searched", of_directory(0o600), "log/", False),
    ("files of mode 0", of_files(0), "log/", False),
    ("files that may only be read", of_files(0o400), "log/", True),
    ("files that may only be written", of_files(0o200), "log/", False),
    ("one file of mode 0", of_one_file(0), "log/", False),
    ("one file that may only be read", of_one_file(0o400), "log/", True),
]
if IS_ROOT:
    DENIALS += [
        ("a directory of another user", of_another, "log", False),
        ("files of another user", files_of_another, "log/", True),
        ("a read-only mount", mount_read_only, "log/", True),
    ]


class Denier:
    """Leaves logs, and starts the program and the operator's over each where leave is wanting."""

    def __init__(self, room, random, settings, count, operator):
        self.room, self.random, self.settings, self.count, self.operator = room, random, settings, count, operator
        self.counts = Counter()
        self.wrong = []

    def log(self, name):
        """Leaves a log, and denies each thing to each program."""
        lines = self.settings(self.random).split("\n")
        self.room.use_settings("\n".join(line for line in lines if "spill" not in line))
        root = self.room.root("live", {})
        ran = self.room.watched(root, [self.room.subject.fresh()], self.random, self.count)
        tree, standing = read_tree(root), ran.candidates(len(ran.told))
        commands = [("program", self.room.subject.words(self.room.settings_path))]
        commands += [("operator", self.operator + task) for task in TASKS if self.operator]
        for denied, deny, path, may_read in DENIALS:
            for kind, command in commands:
                right = self.demand_refused
                if may_read and kind == "operator" and "unpad" not in command:
                    right = self.demand_done
                self.attempt(f"{name}, {denied}, {command}", self.deny, right, kind, command, tree, deny, path)
        for mode in (0o500, 0o100):
            self.attempt(f"{name}, a log in a directory of mode {mode:o}", self.deny_home, mode)
        self.attempt(f"{name}, with leave", self.room.found, self.room.root("image", tree), standing)

    def attempt(self, name, trial, *given):
        """Makes a trial, and keeps what is wrong."""
        self.counts["trials"] += 1
        try:
            trial(*given)
        except Fault as wrong:
            self.wrong.append(f"{name}: {wrong}")

    def deny(self, right, kind, command, tree, deny, path):
        """Starts a command over a log that it may not change, or not even read; what is right then is demanded."""
        root = self.room.root("image", tree)
        before = facts(root)
        deny(f"{root}/log", self.random)
        modes = modes_of(root)
        try:
            right(kind, command, root, path)
            if modes_of(root) != modes:
                raise Fault("a mode or an owner changed")
        finally:
            if deny is mount_read_only:
                subprocess.run(["umount", f"{root}/log"], check=True)
            give_back(root)
        if facts(root) != before:
            raise Fault("something changed")

    def deny_home(self, mode):
        """Starts the program where it may not make the log's directory."""
        root = self.room.root("image", {})
        os.chmod(root, mode)
        try:
            self.demand_refused("program", self.room.subject.words(self.room.settings_path), root, "log")
        finally:
            give_back(root)
        if os.listdir(root):
            raise Fault("something was made")

    def demand_done(self, kind, command, root, _path):
        """Runs a command that only reads, which has to end with status 0. What it copied is as the log, and is taken away."""
        running = Running(WITHOUT_PRIVILEGES + command, root)
        running.close_input()
        status = running.hear_all()
        self.counts[f"readings of the {kind}"] += 1
        if status != 0:
            raise Fault(f"status {status}: {running.complaint()!r}")
        if os.path.isdir(f"{root}/copy"):
            log = read_tree(f"{root}/log")
            if read_tree(f"{root}/copy") != {name: content for name, content in log.items() if name not in BESIDE}:
                raise Fault("the copy differs")
            shutil.rmtree(f"{root}/copy")

    def demand_refused(self, kind, command, root, path):
        """Runs a command, which has to be refused for want of leave to a path."""
        running = Running(WITHOUT_PRIVILEGES + command, root)
        running.close_input()
        status = running.hear_all()
        complaint = (running.complaint().splitlines() or [""])[-1]
        self.counts[f"refusals of the {kind}"] += 1
        if status != REFUSED[kind] or running.told:
            raise Fault(f"status {status}, and it tells {running.told[-100:]!r}: {complaint!r}")
        named = (re.findall(NAMED, complaint) or [""])[0]
        is_named = named == path or path.endswith("/") and named.startswith(path)
        if not re.search("ermission denied|ead-only file system", complaint) or not is_named:
            raise Fault(f"the complaint is {complaint!r}")


def files_of(log):
    """The paths of a log's files, without those that the device keeps beside them."""
    return sorted(entry.path for entry in os.scandir(log) if entry.name not in BESIDE)


def modes_of(root):
    """The modes and owners below a root, as far as they may be read."""
    found = {}
    for home, directories, files in os.walk(root):
        for name in directories + files:
            each = os.lstat(f"{home}/{name}")
            found[f"{home}/{name}"] = each.st_mode, each.st_uid
    return found


def give_back(root):
    """All that lies below a root is the owner's again."""
    os.chmod(root, 0o700)
    for home, directories, files in os.walk(root):
        for name in directories + files:
            path = f"{home}/{name}"
            if IS_ROOT:
                os.chown(path, 0, 0)
            os.chmod(path, 0o700)


def facts(root):
    """The names, bytes and times of change below a root."""
    found = {}
    for home, directories, files in os.walk(root):
        for name in directories + files:
            each = os.stat(f"{home}/{name}")
            is_file = stat.S_ISREG(each.st_mode)
            with open(f"{home}/{name}" if is_file else os.devnull, "rb") as file:
                found[f"{home}/{name}"] = is_file, each.st_mtime_ns, file.read()
    return found
