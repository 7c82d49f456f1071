"""Calls each program rightly and wrongly, and checks its status, what it prints and where."""
import fcntl
import os
import shutil
import subprocess
import tempfile
from collections import Counter

SETTINGS = {
    "low.toml": b'purge-threshold = "1MB"\n',
    "torn.toml": b"purge-threshold = \n",
    "odd.toml": b'purge-treshold = "1MB"\ncompression-level = 1\n',
}
USAGE = "usage: "
# A vote, an entry that is too long for a small disk, and what stands then.
REQUESTS = [b"vote 1 5 2 0 0", b"append 1 5 0 0 0 5:" + b"ab" * 60000, b"status 1"]
REPLIES = ["0 1 Granted 5", "0 1 Refused", "0 1 Status 5 2 0 0 0 0 0"]
FIRST = "0000000000000001.raftlog"
SECOND = "0000000000000002.raftlog"
OF_GROUP_2 = "append 1: group 2: put 0x00ff, 1 bytes\nappend 1: group 2: delete 0x00ff\n"
PURGED = """before: append: files 1 to 1: 1 files, 183 bytes
before: rewrite: no files
after: append: files 1 to 1: 1 files, 183 bytes
after: rewrite: files 1 to 1: 1 files, 69 bytes
"""
FULL = "no space left in log: log/0000000000000001.raftlog keeps its length\n"
DROPPED = ["settings odd.toml: key compression-level is not used", "settings odd.toml: key purge-treshold is not used"]

# The program, its arguments, its status, the stream that has the text, and the text with which it begins, or which is
# part of it.
CALLS = [
    ("raftnode", ["--help"], 0, "stdout", USAGE),
    ("raftnode", [], 2, "stderr", USAGE),
    ("raftnode", ["--nonsense"], 2, "stderr", USAGE),
    ("raftnode", ["log", "--nonsense"], 2, "stderr", USAGE),
    ("raftnode", ["log", "low.toml", "more"], 2, "stderr", USAGE),
    ("raftnode", ["log", "none.toml"], 1, "stderr", '"none.toml"'),
    ("raftnode", ["log", "torn.toml"], 1, "stderr", '"torn.toml"'),
    ("raftnode", ["log", "low.toml"], 1, "stderr", '"low.toml"'),
    ("raftnode", ["none/log"], 1, "stderr", '"none/log"'),
    ("raftvoters", ["--help"], 0, "stdout", USAGE),
    ("raftvoters", ["--nonsense"], 2, "stderr", USAGE),
    ("raftvoters_timeline", ["--help"], 0, "stdout", USAGE),
    ("raftvoters_timeline", ["--nonsense"], 2, "stderr", USAGE),
    ("raft_log_ctl", ["--help"], 0, "stdout", USAGE),
    ("raft_log_ctl", [], 2, "stderr", USAGE),
    ("raft_log_ctl", ["nonsense", "log"], 2, "stderr", USAGE),
    ("raft_log_ctl", ["dump", "none", "--group", "7x"], 2, "stderr", '--group: "7x"'),
    ("raft_log_ctl", ["check", "none"], 3, "stderr", '"none"'),
    ("raft_log_ctl", ["fork", "low.toml", "copy"], 3, "stderr", '"low.toml"'),
    ("raft_log_ctl", ["purge", "none"], 3, "stderr", '"none"'),
    ("raft_log_ctl", ["purge", "low.toml"], 3, "stderr", '"low.toml"'),
    ("raft_log_ctl", ["purge", "."], 3, "stderr", "no log file in ."),
]
# What one program prints on standard output to wrong arguments, beside the usage on standard error.
REJECTED = {"raftvoters": "arguments refused\n"}


class Asker:
    """Calls the programs that are built, and counts those that aren't."""

    def __init__(self, crates):
        self.crates = crates
        self.counts = Counter()
        self.wrong = []

    def ask(self, program, arguments, status, stream, text):
        """Calls a program in a new directory with files of settings."""
        path = os.path.realpath(f"{self.crates}/{program}/out/{program}")
        if not os.path.isfile(path):
            self.counts[f"calls of {program}, which isn't built"] += 1
            return
        with tempfile.TemporaryDirectory() as root:
            write_settings(root)
            ran = subprocess.run([path, *arguments], cwd=root, stdin=subprocess.DEVNULL, capture_output=True, timeout=60)
        self.counts["calls"] += 1
        streams = {"stdout": ran.stdout.decode(), "stderr": ran.stderr.decode()}
        said = streams.pop(stream)
        is_there = said.startswith(text) if text == USAGE else text in said
        (silent,) = streams.values()
        beside = REJECTED.get(program, "") if status == 2 else ""
        if ran.returncode != status or not is_there or silent != beside:
            self.wrong.append(f"{program} {arguments}: status {ran.returncode}, {said!r}, and on the other stream {silent!r}")

    def ask_of_dropped_keys(self):
        """Runs the node with settings of which two keys are none: it warns of each, and serves."""
        path = os.path.realpath(f"{self.crates}/raftnode/out/raftnode")
        if not os.path.isfile(path):
            return
        with tempfile.TemporaryDirectory() as root:
            write_settings(root)
            ran = subprocess.run([path, "log", "odd.toml"], cwd=root, stdin=subprocess.DEVNULL, capture_output=True, timeout=60)
        self.counts["calls"] += 1
        said = ran.stderr.decode()
        if ran.returncode or ran.stdout != b"ready\n" or any(said.count(text) != 1 for text in DROPPED):
            self.wrong.append(f"raftnode with keys that are not used: {ran}")

    def ask_on_full_disk(self):
        """Runs the node on a file system that is too small for one request. It is refused, the next one is answered. It needs root."""
        path = os.path.realpath(f"{self.crates}/raftnode/out/raftnode")
        if not os.path.isfile(path) or os.geteuid():
            self.counts["runs on a full disk that could not be made"] += 1
            return
        asked = b"".join(b"round\n" + request + b"\nend\n" for request in REQUESTS)
        with tempfile.TemporaryDirectory() as root:
            subprocess.run(["mount", "-t", "tmpfs", "-o", "size=300k", "tmpfs", root], check=True)
            try:
                ran = subprocess.run([path, "log"], cwd=root, input=asked, capture_output=True, timeout=60)
            finally:
                subprocess.run(["umount", root], check=True)
        self.counts["calls"] += 1
        told = "ready\n" + "".join(f"round {number} answered\n{reply}\n" for number, reply in enumerate(REPLIES))
        if ran.returncode or ran.stdout.decode() != told or FULL not in ran.stderr.decode():
            self.wrong.append(f"raftnode on a full disk: status {ran.returncode}, {ran.stdout!r}, {ran.stderr!r}")

    def operator_on_one_file(self, root):
        """Copies the first file of the stored log into a root. Returns the path of the operator's program, or None if it isn't built."""
        shutil.copy(f"{self.crates}/raft_log_ctl/data/log/{FIRST}", f"{root}/{FIRST}")
        path = os.path.realpath(f"{self.crates}/raft_log_ctl/out/raft_log_ctl")
        return path if os.path.isfile(path) else None

    def ask_for_one_file(self):
        """Dumps a file that was copied out of its log. Beside it is a link with a log file's name, which no log may have."""
        with tempfile.TemporaryDirectory() as root:
            path = self.operator_on_one_file(root)
            if not path:
                return
            os.symlink("none", f"{root}/{SECOND}")
            ran = subprocess.run([path, "dump", f"{root}/{FIRST}", "--group", "2"], capture_output=True, timeout=60)
        self.counts["calls"] += 1
        if ran.returncode or ran.stdout.decode() != OF_GROUP_2 or ran.stderr:
            self.wrong.append(f"raft_log_ctl dump of one file: {ran}")

    def ask_to_purge(self):
        """Purges a log of one file, which keeps its bytes, and one whose directory another program has locked."""
        with tempfile.TemporaryDirectory() as root:
            path = self.operator_on_one_file(root)
            if not path:
                return
            ran = subprocess.run([path, "purge", f"{root}/"], capture_output=True, timeout=60)
            directory = os.open(root, os.O_RDONLY)
            fcntl.flock(directory, fcntl.LOCK_EX)
            locked = subprocess.run([path, "purge", root], capture_output=True, timeout=60)
            os.close(directory)
        self.counts["calls"] += 2
        if ran.returncode or ran.stdout.decode() != PURGED or ran.stderr:
            self.wrong.append(f"raft_log_ctl purge: {ran}")
        if locked.returncode != 3 or locked.stdout or "in use" not in locked.stderr.decode():
            self.wrong.append(f"raft_log_ctl purge of a locked log: {locked}")

    def ask_with_closed_pipe(self):
        """Runs tasks whose output nobody reads: they print no message, and a task that finds damage says so by its status."""
        with tempfile.TemporaryDirectory() as root:
            path = self.operator_on_one_file(root)
            if not path:
                return
            self.ask_unread(path, root, {"--help": 0, "dump": 0, "check": 0, "stat": 0, "purge": 0})
            shutil.copy(f"{root}/{FIRST}", f"{root}/{SECOND}")
            self.ask_unread(path, root, {"dump": 0, "check": 1, "stat": 1})

    def ask_unread(self, path, root, statuses):
        """Runs tasks on a log, each into a pipe that is closed at the other end. Each has the status that is wanted."""
        for task, status in statuses.items():
            end, start = os.pipe()
            os.close(end)
            words = [path, task] if task == "--help" else [path, task, root]
            ran = subprocess.run(words, stdout=start, stderr=subprocess.PIPE, timeout=60)
            os.close(start)
            self.counts["calls"] += 1
            if ran.returncode != status or ran.stderr:
                self.wrong.append(f"raft_log_ctl {task} into a closed pipe: {ran}")


def write_settings(root):
    """Writes the files of settings into a directory."""
    for name, content in SETTINGS.items():
        with open(f"{root}/{name}", "wb") as file:
            file.write(content)
