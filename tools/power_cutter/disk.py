"""A disk that follows a trace: what is durable, what isn't yet, and what a power cut may leave.

Of a file what was written, cut or grown since its last sync isn't durable, nor of a directory the names that changed since
its own. It is as weak a disk as a program may meet: a file's sync keeps no name, and a name's keeps no bytes.
"""
import os
import posixpath

from file import File
from running import Fault

CREATE, TRUNCATE = os.O_CREAT, os.O_TRUNC
NOT_FOLLOWED = os.O_DSYNC | os.O_TMPFILE & ~os.O_DIRECTORY


class Directory:
    """A directory: its names, each to a file or a directory."""

    def __init__(self):
        self.names, self.durable = {}, {}


class Unfollowed(Fault):
    """The trace has a call that the disk can't follow."""


class Disk:
    """What lies below a root, by the calls so far. `drops` has the kinds of syncs that are passed over: "bytes", "names".

    `lose` says what a sync that failed leaves of a file on the medium. Without it the changes stay open: enough for a cut
    that comes right after. `sticks` says whether pages that were new at that sync stay lost until they are cut off.
    """

    def __init__(self, root, tree=None, drops=(), lose=None, sticks=False):
        self.root, self.drops, self.lose, self.sticks = root, drops, lose, sticks
        self.top = Directory()
        # changes of names that aren't durable, in their order
        self.pending = []
        self.handles = {}
        self.syncs = self.failed_syncs = 0
        plant(self.top, tree or {})

    def forget_handles(self):
        """The program ended."""
        self.handles = {}

    def find(self, path):
        """What has a path, or None."""
        at = self.top
        for word in self.words(path):
            at = at.names.get(word) if isinstance(at, Directory) else None
        return at

    def words(self, path):
        """The names below the root that lead to a path."""
        path = path.decode()
        if path != self.root and not path.startswith(self.root + "/"):
            raise Unfollowed(f"{path} is not below {self.root}")
        return [word for word in path[len(self.root) :].split("/") if word]

    def place(self, path):
        """The directory in which a path lies, and its last name."""
        home, name = posixpath.split(path.decode())
        return self.find(home.encode()), name

    def take(self, note):
        """Takes a call of the trace."""
        if note.call == "other":
            raise Unfollowed(note.first.decode())
        if note.error and note.call == "synced":
            self.fail_sync(self.handles[note.file])
        elif not note.error and note.call not in ("told", "fell"):
            getattr(self, "take_" + note.call.replace(" ", "_"))(note)

    def fail_sync(self, target):
        """A sync failed: a file's changes are lost; a directory's names are as they were, and its next sync keeps them."""
        if self.lose and isinstance(target, File):
            self.failed_syncs += 1
            target.lose(self.lose(target), self.sticks)

    def take_opened(self, note):
        """A file or a directory is opened, and perhaps made."""
        if note.at & NOT_FOLLOWED:
            raise Unfollowed("a handle that syncs by itself, or a file without a name")
        if note.at & CREATE and self.find(note.first) is None:
            self.set_names((*self.place(note.first), File()))
        target = self.find(note.first)
        if target is None:
            raise Unfollowed(f"{note.first} is opened and isn't there")
        if note.at & TRUNCATE and isinstance(target, File) and target.now:
            target.change(0, None)
        self.handles[note.file] = target

    def take_closed(self, note):
        """A handle is let go."""
        self.handles.pop(note.file, None)

    def take_copied(self, note):
        """Another handle of the same file."""
        self.handles[note.at] = self.handles[note.file]

    def take_written(self, note):
        """Bytes are written."""
        self.handles[note.file].change(note.at, note.first)

    def take_cut(self, note):
        """A file has another size."""
        self.handles[note.file].change(note.at, None)

    def take_synced(self, note):
        """A file or a directory is synced."""
        target = self.handles[note.file]
        self.syncs += 1
        if isinstance(target, File) and "bytes" not in self.drops:
            target.sync()
        elif isinstance(target, Directory) and "names" not in self.drops:
            self.sync_names(target)

    def take_renamed(self, note):
        """A name changes."""
        home, name = self.place(note.first)
        other, new = self.place(note.second)
        self.set_names((other, new, home.names[name]), (home, name, None))

    def take_unlinked(self, note):
        """A name is gone."""
        self.set_names((*self.place(note.first), None))

    def take_made_directory(self, note):
        """A directory is made."""
        self.set_names((*self.place(note.first), Directory()))

    take_removed_directory = take_unlinked

    def set_names(self, *parts):
        """Names change together."""
        for directory, name, target in parts:
            set_name(directory.names, name, target)
        self.pending.append(NameChange(parts))

    def sync_names(self, directory):
        """The names in a directory are durable; a renaming to another directory only once both were synced, and what follows it."""
        left, held = [], []
        for change in self.pending:
            change.owes = [each for each in change.owes if each is not directory]
            if change.owes or change.touches(held):
                left.append(change)
                held += change.directories()
            else:
                make(change)
        self.pending = left


class NameChange:
    """Names that change together: each part is a directory, a name in it, and what the name leads to from then on, or None."""

    def __init__(self, parts):
        self.parts = parts
        self.owes = self.directories()

    def directories(self):
        """The directories whose names change."""
        return [directory for directory, _name, _target in self.parts]

    def touches(self, directories):
        """Whether it changes names in one of these directories."""
        return any(each is directory for each in self.directories() for directory in directories)


def set_name(names, name, target):
    """A name leads to a target, or is gone."""
    if target is None:
        names.pop(name, None)
    else:
        names[name] = target


def make(change):
    """A change of names is durable."""
    for directory, name, target in change.parts:
        set_name(directory.durable, name, target)


def plant(directory, tree):
    """Puts a tree of durable files, each name with its bytes or with another tree, into a directory."""
    for name, content in tree.items():
        if isinstance(content, dict):
            below = Directory()
            plant(below, content)
        else:
            below = File(content)
        directory.names[name] = directory.durable[name] = below


def write_tree(tree, path):
    """Makes the files of a tree in a new directory."""
    os.mkdir(path)
    for name, content in tree.items():
        below = f"{path}/{name}"
        if isinstance(content, dict):
            write_tree(content, below)
        else:
            with open(below, "wb") as file:
                file.write(content)


def read_tree(path):
    """The tree of the files in a directory."""
    tree = {}
    for entry in os.scandir(path):
        if entry.is_dir():
            tree[entry.name] = read_tree(entry.path)
        else:
            with open(entry.path, "rb") as file:
                tree[entry.name] = file.read()
    return tree


def tree_now(directory):
    """The tree of what a directory of a disk holds for who reads it now."""
    return {
        name: tree_now(target) if isinstance(target, Directory) else bytes(target.now)
        for name, target in directory.names.items()
    }
