"""A file system on a real block device in memory (zram), all of whose writes fail while it is told that it may have no memory.

It takes root, and a kernel with zram. What the device holds at a moment is what a power cut leaves there, so no cache of the
device itself is lost: a kinder cut than those of image.py.
"""
import mmap
import os
import subprocess

from file import PAGE

MAKERS = {"ext4": ["mkfs.ext4", "-q", "-b", "4096"], "xfs": ["mkfs.xfs", "-q"]}
# Only a sync writes the journal, and no timer.
OPTIONS = {"ext4": ["-o", "commit=600"], "xfs": []}
CONTROL = "/sys/class/zram-control"
PIECE = 1 << 20


class Device:
    """A device of so many bytes, with a file system that is mounted below a room; `with` takes both away again."""

    def __init__(self, room, kind, size):
        self.room, self.kind, self.size = room, kind, size
        self.root, self.after, self.unreadable = f"{room}/device", f"{room}/after", 0

    def __enter__(self):
        with open(f"{CONTROL}/hot_add") as control:
            self.number = int(control.read())
        self.path = f"/dev/zram{self.number}"
        self.tell("disksize", self.size)
        os.mkdir(self.root)
        os.mkdir(self.after)
        return self

    def __exit__(self, *_):
        for place in (self.after, self.root):
            subprocess.run(["umount", "-q", place], check=False)
            os.rmdir(place)
        with open(f"{CONTROL}/hot_remove", "w") as control:
            control.write(str(self.number))

    def tell(self, name, value):
        """Sets something of the device."""
        with open(f"/sys/block/zram{self.number}/{name}", "w") as file:
            file.write(str(value))

    def make(self):
        """Makes an empty file system, all of which is on the device."""
        subprocess.run(["umount", "-q", self.root], check=False)
        subprocess.run(MAKERS[self.kind] + (["-f"] if self.kind == "xfs" else []) + [self.path], check=True)
        subprocess.run(["mount"] + OPTIONS[self.kind] + [self.path, self.root], check=True)
        os.sync()

    def fail(self):
        """Each write that reaches the device fails from now on, but for pages in which all bytes are alike."""
        self.tell("mem_limit", 1)

    def mend(self):
        """Writes succeed again."""
        self.tell("mem_limit", 0)

    def cut(self):
        """Mounts what the device has now beside it: where that is."""
        subprocess.run(["umount", "-q", self.after], check=False)
        left = f"{self.room}/left"
        self.copy(left)
        subprocess.run(["mount", "-o", "loop" + (",nouuid" if self.kind == "xfs" else ""), left, self.after], check=True)
        return self.after

    def copy(self, path):
        """Copies what the device has, past any cache."""
        room = mmap.mmap(-1, PIECE)
        with open(path, "wb") as file, open(self.path, "rb", buffering=0, opener=direct) as device:
            file.truncate(self.size)
            for at in range(0, self.size, PIECE):
                if self.read(device.fileno(), room, at):
                    os.pwrite(file.fileno(), room, at)

    def read(self, handle, room, at):
        """Reads a piece, and whether it has anything but zeros. A page that can't be read, as one whose write failed, is zeros."""
        try:
            os.preadv(handle, [room], at)
        except OSError:
            for place in range(0, PIECE, PAGE):
                page = mmap.mmap(-1, PAGE)
                try:
                    os.preadv(handle, [page], at + place)
                except OSError:
                    self.unreadable += 1
                room[place : place + PAGE] = page[:]
        return room[:] != bytes(PIECE)


def direct(path, flags):
    """Opens a device past the page cache."""
    return os.open(path, flags | os.O_DIRECT)
