"""Directories that random histories of the engine leave: writes, syncs, compactions, the four purges, closes and crashes."""
from dataclasses import dataclass, replace

from player import told_map
from world import World, batch, spelled

MODES = ("absolute", "tail", "any")
PURGES = ("append", "rewrite", "stale", "expired")


@dataclass
class Settings:
    """The settings of a log, as the program takes them."""
    spill: str = "-"
    mode: str = "tail"
    workers: int = 1
    target: int = 1024
    purge: int = 4096
    rewrite: int = 1024
    ratio: int = 600
    version: int = 2
    recycle: int = 1
    prefill: int = 0
    block: int = 512

    def line(self):
        return (f"settings d {self.spill} {self.mode} {self.workers} {self.target} {self.purge} {self.rewrite} {self.ratio} "
                f"{self.version} {self.recycle} {self.prefill} {self.block}")

    def directories(self):
        return ["d"] if self.spill == "-" else ["d", self.spill]

    def but(self, **other):
        return replace(self, **other)


def settings(random):
    """Settings of a log of small files."""
    target = random.choice([1, 1, 70, 120, 200, 400, 1024, 4096])
    version = random.choices([2, 1], [9, 1])[0]
    recycle = int(version == 2 and random.random() < 0.8)
    return Settings(spill=random.choice(["-", "-", "s"]), mode=random.choice(MODES[1:]), workers=random.choice([1, 1, 2, 4]), target=target,
                    purge=target * random.choice([1, 2, 5]), rewrite=random.choice([target, target * 2]),
                    ratio=random.choice([0, 300, 600]), version=version, recycle=recycle,
                    prefill=int(recycle and random.random() < 0.15), block=random.choice([512, 512, 4096]))


class Wrong(Exception):
    """Something is otherwise than it is to be."""


def crash(random):
    """What a crash leaves."""
    kind = random.choice(["last", "all", "first", "pieces"])
    if kind == "first":
        return f"first {random.randrange(6)} {random.choice([0, 3, 20, 60, 500])}"
    if kind == "pieces":
        return "pieces " + "".join(random.choice("kkllb") for _ in range(random.randrange(1, 8)))
    return kind


def leave(player, random, given, longest=60, rounds=(1, 3), steps=(4, 40)):
    """Plays a history, and answers its files, and the worlds that they may hold."""
    player.ask_all(["new", given.line()])
    worlds = [World()]
    for _ in range(random.randint(*rounds)):
        told(player.ask("open"), "ok")
        found = told_map(player.ask("map"))
        fits = [world for world in worlds if world.is_told(found)]
        if not fits:
            raise Wrong(f"opened with something else: {found} is none of {worlds}")
        worlds = fits[-1:]
        for _ in range(random.randint(*steps)):
            worlds = step(player, random, worlds, longest)
        if random.random() < 0.5:
            told(player.ask("close"), "ok")
            worlds = worlds[-1:]
        else:
            told(player.ask("crash " + crash(random)), "ok")
    files = dict(word.split("=") for word in player.ask("dump").split(" ")[1:])
    return {path: bytes.fromhex(digits) for path, digits in files.items()}, worlds


def told(answer, want):
    if not answer.startswith(want):
        raise Wrong(f"{answer} in place of {want}")


def step(player, random, worlds, longest):
    """Plays a step, and answers the worlds that a crash may leave then: the one after the last sync, and one behind each batch."""
    kind = random.choices(["write", "sync", "compact", "purge"], [10, 1, 1, 2])[0]
    world = worlds[-1]
    if kind == "write":
        items, sync = batch(random, world, longest), random.random() < 0.4
        told(player.ask(f"write {int(sync)} {spelled(items)}"), "ok")
        return ([] if sync else worlds) + [world.take(items)]
    if kind == "compact":
        group = random.choice([1, 2, 3])
        entries = world.group(group)[0]
        index = random.choice([0, max(entries, default=3), max(entries, default=3) + 1, min(entries, default=2) + 1])
        told(player.ask(f"compact {group} {index}"), f"ok {world.below(group, index)}")
        return worlds + [world.take([("compact", group, index)])]
    told(player.ask(f"purge {random.choice(PURGES)}" if kind == "purge" else "sync"), "ok")
    return [world]
