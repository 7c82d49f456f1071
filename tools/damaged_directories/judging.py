"""A directory is opened, and what the engine makes of it is compared with what it means."""
from collections import Counter

from formats import spell_header
from histories import PURGES, Wrong
from meaning import ENDS, Meaning, Refused, number_of
from player import shown, told_map
from world import World, batch, spelled


class Judge:
    """Judges directories, and counts."""

    # how many bytes an open may take whatever the files have
    FREE = 8 << 20

    def __init__(self, player):
        self.player, self.counts, self.wrong = player, Counter(), []
        self.most = 0

    def load(self, files, settings):
        """The program has these files."""
        lines = ["new", settings.line()] + ["dir d", "dir s"]
        lines += [f"file {path} {bytes_.hex()}".rstrip() for path, bytes_ in sorted(files.items())]
        for answer in self.player.ask_all(lines):
            if answer != "ok":
                raise Wrong(f"the files aren't taken: {answer}")

    def files(self):
        words = self.player.ask("dump").split(" ")[1:]
        return {path: bytes.fromhex(digits) for path, digits in (word.split("=") for word in words)}

    def judge(self, random, files, settings, uses):
        """Opens a directory, and compares."""
        self.load(files, settings)
        before = self.player.memory("VmRSS")
        self.player.forget()
        answer = self.player.ask("open")
        grown = self.player.memory("VmHWM") - before
        size = sum(map(len, files.values()))
        self.most = max(self.most, (grown - self.FREE) / max(size, 1))
        if grown > self.FREE + 8 * size:
            raise Wrong(f"took {grown} bytes for {size}")
        try:
            meaning, refused = Meaning(files, settings), None
        except Refused as why:
            meaning, refused = None, why.kind
        if answer != "ok":
            return self.judge_refused(answer, refused, files, settings, uses)
        self.counts[f"{settings.mode}: opened"] += 1
        told = told_map(self.player.ask("map"))
        if refused or not meaning.tells(told):
            meaning = self.by_workers(files, settings, told, refused)
        if uses:
            self.compare_disk(files, meaning)
            self.use(random, meaning, settings, refused)
        return None

    def by_workers(self, files, settings, told, refused):
        """What it means to so many workers, where that is otherwise than to one."""
        try:
            meaning = Meaning(files, settings, settings.workers)
        except Refused as why:
            raise Wrong(f"opened, and is to be refused: {refused}, {why.kind}") from None
        if not meaning.tells(told):
            raise Wrong(f"opened as {told}, refused {refused}, is to be {describe(meaning)}")
        self.counts["otherwise by several workers"] += 1
        return meaning

    def judge_refused(self, answer, refused, files, settings, uses):
        """Compares a refusal."""
        kind = answer.split(" ")[1]
        self.counts[f"{settings.mode}: {kind}"] += 1
        if kind != refused:
            try:
                Meaning(files, settings, settings.workers)
                raise Wrong(f"refused: {answer}; is to be {refused or 'opened'}")
            except Refused as why:
                if why.kind != kind:
                    raise Wrong(f"refused: {answer}; is to be {refused}, {why.kind}") from None
            self.counts["otherwise by several workers"] += 1
        if uses and kind != "number-range" and self.files() != files:
            raise Wrong(f"refused: {answer}; and the files were changed")

    def compare_disk(self, files, meaning):
        """Compares what stands on the disk behind an open."""
        after = self.files()
        for path, bytes_ in files.items():
            want = [bytes_]
            if path in meaning.ends:
                read = meaning.ends[path]
                is_last = any(kept and kept[-1][1] == path for kind, kept in meaning.kept.items())
                end = read.end if read.end is not None else 0
                want = [bytes_[:end] if read.fault or is_last else bytes_]
                if is_last and end == 0:
                    want = [spell_header(1)]
            if any(path == other for _, other in meaning.kept["reserved"][meaning.reserved:]):
                want = [None]
            if after.get(path) not in want:
                raise Wrong(f"{path} has {after.get(path)!r} in place of {want!r}")

    def use(self, random, meaning, settings, refused):
        """Goes on with a log that was opened, and opens it again; one worker may have refused it."""
        world = World({group: (dict(of.entries), dict(of.keys)) for group, of in meaning.groups.items()})
        for _ in range(random.randrange(1, 6)):
            world = self.step(random, world)
        told = told_map(self.player.ask("map"))
        if not tells(world, told):
            raise Wrong(f"goes on as {told}, is to be {world}")
        for line in ("close", settings.line(), "open"):
            answer = self.player.ask(line)
            if answer.startswith("refused hole") and refused == "hole":
                self.counts["opened by several workers alone, and not again"] += 1
                return
            is_damage = answer.split(" ")[:2] in (["refused", "corruption"], ["refused", "codec"], ["refused", "hole"])
            is_padded = answer.startswith("refused invalid-argument") and "has an alignment" in answer
            if (is_damage or is_padded) and self.is_doubled(meaning):
                self.counts["a file of a doubled number came back, and refuses the log"] += 1
                return
            if answer != "ok":
                raise Wrong(f"isn't opened again: {answer}")
        told = told_map(self.player.ask("map"))
        self.counts["gone on with and opened again"] += 1
        if not tells(world, told):
            if not self.is_doubled(meaning):
                raise Wrong(f"opened again as {told}, is to be {world}")
            self.counts["files below a doubled number came back"] += 1

    @staticmethod
    def is_doubled(meaning):
        """Whether a queue's first file that is kept has a number that a dropped one has too: once a purge takes the kept one, nothing is missing between the dropped ones and the next."""
        for kind in ("append", "rewrite"):
            kept = meaning.kept[kind]
            if kept and any(number_of(path.split("/")[1], ENDS[kind]) == kept[0][0] and path != kept[0][1] for path in meaning.files):
                return True
        return False

    def step(self, random, world):
        """A write or a purge."""
        if random.random() < 0.5:
            readable = {group: of for group, of in world.groups.items() if max(of[0], default=0) < 1 << 62}
            items = batch(random, World(readable), 60)
            if any(max(world.group(item[1])[0], default=0) >= 1 << 62 for item in items):
                return world
            answer = self.player.ask(f"write 1 {spelled(items)}")
            if answer.startswith("ok"):
                return world.take(items)
            return self.refused_step(answer, world, "write")
        answer = self.player.ask(f"purge {random.choice(PURGES)}")
        return world if answer.startswith("ok") else self.refused_step(answer, world, "purge")

    def refused_step(self, answer, world, what):
        """A step may be refused where a number would be too great, a purge also where an entry can't be read."""
        kind = answer.split(" ")[1]
        unread = any(None in entries.values() for entries, _ in world.groups.values())
        last = self.player.ask("spans")
        may = (kind == "number-range" and "9999999999999999" in last or
               what == "purge" and kind == "corruption" and unread)
        if not may:
            raise Wrong(f"{what} is refused: {answer}")
        self.counts[f"{what} refused: {kind}"] += 1
        return world


def tells(world, told):
    """Whether the program tells this world."""
    some = {group: of for group, of in world.groups.items() if of[0] or of[1]}
    if {group for group, of in told.items() if of[0] or of[2]} != set(some):
        return False
    for group, (entries, keys) in some.items():
        want = {index: "!corruption" if bytes_ is None else shown(bytes_) for index, bytes_ in entries.items()}
        together = "corruption" if None in entries.values() else ""
        if told[group] != [want, together, {key: shown(value) for key, value in keys.items()}]:
            return False
    return True


def describe(meaning):
    return {group: (of.entries, of.keys) for group, of in meaning.groups.items()}
