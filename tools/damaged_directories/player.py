"""The program that plays steps on a log over a file system in memory, asked line by line, each with a time limit."""
import os
import select
import subprocess
import time

# a first open, which makes the threads
FIRST = ["new", "settings d - tail 4 1024 4096 1024 600 2 1 0 512", "open", "close"]
# how much longer an answer may take by the clock than by the processor, on a machine that is at work for others
SLOWER = 30
TICKS = os.sysconf("SC_CLK_TCK")


class Silent(Exception):
    """The program ended, or didn't answer in time."""


class Player:
    """The running program. An answer may take so many seconds of the processor."""

    def __init__(self, command, limit=20, preload=None):
        self.command, self.limit, self.preload = command, limit, preload
        self.start()

    def start(self):
        environment = {name: os.environ[name] for name in ("ASAN_OPTIONS",) if name in os.environ}
        if self.preload:
            environment["LD_PRELOAD"] = self.preload
        self.process = subprocess.Popen(self.command, stdin=subprocess.PIPE, stdout=subprocess.PIPE, env=environment,
                                        stderr=None if self.preload else subprocess.DEVNULL, start_new_session=True)
        self.held = b""
        self.ask_all(FIRST)

    def end(self):
        self.process.kill()
        self.process.wait()
        for stream in (self.process.stdin, self.process.stdout):
            stream.close()

    def again(self):
        """Ends the program and starts it anew."""
        self.end()
        self.start()

    def spent(self):
        """How many seconds of the processor the program has taken."""
        with open(f"/proc/{self.process.pid}/stat") as stat:
            return sum(map(int, stat.read().rsplit(")", 1)[1].split()[11:13])) / TICKS

    def lines(self, count):
        """So many answers."""
        spent, asked = self.spent(), time.time()
        while self.held.count(b"\n") < count:
            ready, _, _ = select.select([self.process.stdout], [], [], 1)
            got = os.read(self.process.stdout.fileno(), 1 << 20) if ready else b""
            self.held += got
            if ready and not got:
                raise Silent(f"ended with status {self.process.wait()}")
            if not got and (self.spent() - spent > self.limit or time.time() - asked > self.limit * SLOWER):
                raise Silent("no answer in time")
        *lines, self.held = self.held.split(b"\n", count)
        return [line.decode() for line in lines]

    def ask(self, line):
        """A step's answer."""
        return self.ask_all([line])[0]

    def ask_all(self, lines):
        """The answers of steps; few bytes are answered to any of them but the last."""
        try:
            self.process.stdin.write("".join(line + "\n" for line in lines).encode())
            self.process.stdin.flush()
        except BrokenPipeError:
            raise Silent(f"ended with status {self.process.wait()}") from None
        return self.lines(len(lines))

    def memory(self, what):
        """How many bytes the program has (`VmRSS`) or had at most since `forget` (`VmHWM`)."""
        with open(f"/proc/{self.process.pid}/status") as status:
            for line in status:
                if line.startswith(what):
                    return int(line.split()[1]) * 1024
        return 0

    def forget(self):
        """What the program had at most is forgotten."""
        with open(f"/proc/{self.process.pid}/clear_refs", "w") as file:
            file.write("5")


def shown(bytes_):
    """How the program tells bytes."""
    if len(bytes_) <= 24:
        return bytes_.hex()
    hash_ = 14695981039346656037
    for byte in bytes_:
        hash_ = ((hash_ ^ byte) * 1099511628211) % (1 << 64)
    return f"{len(bytes_)}*{hash_}"


def told_map(line):
    """The groups that the program tells: of each its entries as told (index to text), what is wrong with reading them at once, and its keys."""
    assert line.startswith("map"), line
    groups, group = {}, None
    for word in line.split(" ")[1:]:
        if word.startswith("@"):
            group = groups[int(word[1:])] = [{}, "", {}]
        elif "=" in word:
            key, value = word.split("=")
            group[2][bytes.fromhex(key)] = value
        elif word != "-":
            word, _, group[1] = word.partition("~")
            ends, *entries = word.split(",")
            first, last = map(int, ends.split("-"))
            group[0] = dict(zip(range(first, last + 1), entries))
    return groups
