"""A file as Linux keeps it: the bytes on the medium, the changes that are on the way there, and the page cache, which a read gives.

A sync that fails loses its changes: their pages are clean from then on, so a later sync does not write them, while a read
still gives them. They are written once something in their page is. A shortening is not lost: it is no page's.
"""

PAGE = 4096


class File:
    """A file: `synced` is on the medium, `changes` since are writes (place, bytes) or sizes (size, None), `now` is the cache.

    `kept` is what the medium has once all changes are written: the same as the cache, unless a sync failed.
    """

    def __init__(self, synced=b""):
        self.synced, self.changes = synced, []
        self.now, self.kept = bytearray(synced), bytearray(synced)
        # pages whose bytes the medium shows as zeros until they are cut off
        self.stuck = set()

    def change(self, place, bytes_):
        """A write, or another size where there are no bytes. Bytes that the cache has already change nothing but what was lost."""
        end = place
        if bytes_ is not None:
            end += len(bytes_)
        elif place < len(self.now):
            # (what stands behind the new end in its page is made zero there)
            end += place % PAGE > 0
        if not self.has(place, bytes_):
            apply(self.now, place, bytes_)
            self.note(place, bytes_)
        if place < end:
            self.dirty(place, end)

    def has(self, place, bytes_):
        """Whether the cache stays as it is by a change."""
        return place == len(self.now) if bytes_ is None else self.now[place : place + len(bytes_)] == bytes_

    def note(self, place, bytes_):
        """A change is on its way to the medium."""
        if bytes_ is None:
            self.stuck = {page for page in self.stuck if page * PAGE < place}
        elif self.stuck:
            bytes_ = self.shown(place, bytes_)
        self.changes.append((place, bytes_))
        apply(self.kept, place, bytes_)

    def shown(self, place, bytes_):
        """What the medium shows of a write: zeros in pages that are stuck."""
        shown = bytearray(bytes_)
        for page in self.stuck:
            first, end = max(page * PAGE, place), min((page + 1) * PAGE, place + len(bytes_))
            if first < end:
                shown[first - place : end - place] = bytes(end - first)
        return bytes(shown)

    def dirty(self, first, end):
        """The pages of these places are written whole: what the medium lacks of them is on its way again."""
        for at in range(first - first % PAGE, end, PAGE):
            for place, lost in differences(self.now[at : at + PAGE], self.kept[at : at + PAGE]):
                self.note(at + place, lost)

    def sync(self):
        """All changes are on the medium."""
        self.synced, self.changes = bytes(self.kept), []

    def lose(self, left, sticks=False):
        """A sync failed: these bytes are on the medium, and nothing but a shortening is on its way. A read gives what it gave.

        Where a file system sticks, as ext4 does, pages that were new at that sync take no bytes until they are cut off.
        """
        if sticks:
            self.stuck |= set(range(-(-len(self.synced) // PAGE), -(-len(self.now) // PAGE)))
            left = left[: len(self.synced)] + self.shown(len(self.synced), left[len(self.synced) :])
        self.synced, self.changes, self.kept = bytes(left), [], bytearray(left)
        if len(left) > len(self.now):
            self.note(len(self.now), None)


def differences(wanted, there):
    """The runs of bytes of the first string that the second one lacks, each with its place."""
    if wanted == there:
        return []
    runs = []
    for place, byte in enumerate(wanted):
        if there[place : place + 1] == bytes([byte]):
            continue
        if runs and runs[-1][0] + len(runs[-1][1]) == place:
            runs[-1][1].append(byte)
        else:
            runs.append((place, bytearray([byte])))
    return [(place, bytes(run)) for place, run in runs]


def apply(bytes_, place, written):
    """Makes a change of a file's bytes."""
    if written is None:
        del bytes_[place:]
        bytes_.extend(bytes(place - len(bytes_)))
        return
    if len(bytes_) < place:
        bytes_.extend(bytes(place - len(bytes_)))
    bytes_[place : place + len(written)] = written
