"""Runs a program over a directory: feeds it, hears it, kills it, perhaps with the library of preload.c before it."""
import os
import select
import subprocess
import tempfile
import threading
import time

HERE = os.path.dirname(os.path.abspath(__file__))


class Fault(Exception):
    """What is wrong with what a program did or left."""


class Ended(Fault):
    """The program ended before it served."""

    def __init__(self, running):
        self.status = running.finish()
        super().__init__(f"it ends before it serves, status {self.status}: {running.complaint()[-300:]!r} {running.told[-200:]!r}")


class NotShown(Fault):
    """The round that was to show what stands was cut off."""


def built_library(room):
    """The library of preload.c, built into a directory."""
    path = f"{room}/preload.so"
    command = [os.environ.get("CC", "cc"), "-O2", "-shared", "-fPIC", "-o", path, f"{HERE}/preload.c", "-ldl", "-lpthread"]
    subprocess.run(command, check=True)
    return path


class Watch:
    """What the library is asked for: where it notes the calls below a root, and the fault, as `refuse 7 5`."""

    def __init__(self, library, root, trace, fault="none"):
        self.library, self.root, self.trace, self.fault = library, root, trace, fault

    def environment(self):
        """The variables that tell the library so."""
        return {
            "LD_PRELOAD": self.library,
            "POWER_CUTTER_ROOT": self.root,
            "POWER_CUTTER_TRACE": self.trace,
            "POWER_CUTTER_FAULT": self.fault,
        }


class Running:
    """A program that runs in a root directory."""

    def __init__(self, words, root, watch=None, seconds=60):
        self.complaints = tempfile.TemporaryFile()
        environment = {"PATH": os.environ["PATH"], "HOME": os.environ.get("HOME", "/")}
        self.process = subprocess.Popen(
            words,
            cwd=root,
            stdin=subprocess.PIPE,
            stdout=subprocess.PIPE,
            stderr=self.complaints,
            env=environment | (watch.environment() if watch else {}),
        )
        self.told = b""
        self.end = time.monotonic() + seconds
        self.writer = None

    def feed(self, text, closes=False):
        """Writes to the program's input, beside what else is done."""

        def write():
            try:
                self.process.stdin.write(text.encode())
                self.process.stdin.flush()
            except BrokenPipeError:
                pass
            if closes:
                self.close_input()

        if self.writer:
            self.writer.join()
        self.writer = threading.Thread(target=write, daemon=True)
        self.writer.start()

    def close_input(self):
        """The program's input ends."""
        try:
            self.process.stdin.close()
        except BrokenPipeError:
            pass

    def hear(self):
        """Adds what the program tells to `told`; whether there was anything before it ended."""
        handle = self.process.stdout.fileno()
        ready, _, _ = select.select([handle], [], [], max(self.end - time.monotonic(), 0))
        if not ready:
            self.kill()
            raise Fault(f"no answer in time behind {self.told[-200:]!r}")
        piece = os.read(handle, 1 << 20)
        self.told += piece
        return bool(piece)

    def hear_until(self, is_enough):
        """Hears until what was told is enough; whether it was before the program ended."""
        while not is_enough(self.told):
            if not self.hear():
                return is_enough(self.told)
        return True

    def hear_all(self):
        """Hears until the program ends, and answers its status."""
        while self.hear():
            continue
        return self.finish()

    def kill(self):
        """Kills the program, hears what is left, and answers its status."""
        self.process.kill()
        while True:
            piece = os.read(self.process.stdout.fileno(), 1 << 20)
            if not piece:
                break
            self.told += piece
        return self.finish()

    def finish(self):
        """The program has ended: its status."""
        status = self.process.wait()
        if self.writer:
            self.writer.join()
        self.close_input()
        self.process.stdout.close()
        return status

    def complaint(self):
        """What the program wrote to its standard error."""
        self.complaints.seek(0)
        return self.complaints.read().decode(errors="replace").strip()
