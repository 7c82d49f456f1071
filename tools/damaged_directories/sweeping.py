"""A run of steps on a log, played again and again with one fault: at each changing call, each growth of memory, each place."""
from damage import number_in
from formats import read_file
from histories import PURGES, Wrong
from player import shown, told_map
from world import World, batch, spelled

LEFT = ["last", "all", "first 0 20", "first 1 35", "pieces klk", "pieces lkkk", "pieces blbk", "first 2 0"]
TRIES = 5

# how many of them are tried at a time, in turn
EACH = 3


def script(random, count, longest=60):
    """Steps that may come one behind another where none is refused: each its word, and what it says."""
    steps, world = [("open",)], World()
    for place in range(count):
        if place in (count // 3, 2 * count // 3):
            steps += [("close",), ("open",)] if random.random() < 0.5 else [("crash", "all"), ("open",)]
        kind = random.choices(["write", "sync", "compact", "purge", "read"], [10, 1, 1, 3, 1.5])[0]
        if kind == "write":
            items = batch(random, world, longest)
            world = world.take(items)
            steps.append(("write", items, random.random() < 0.4))
        elif kind == "compact":
            group = random.choice([1, 2, 3])
            entries = world.group(group)[0]
            index = random.choice([max(entries, default=3), max(entries, default=3) + 1, min(entries, default=2) + 1])
            world = world.take([("compact", group, index)])
            steps.append(("compact", group, index))
        elif kind == "purge":
            steps.append(("purge", random.choice(PURGES)))
        else:
            steps.append((kind,))
    return steps + [("close",), ("open",)]


class Run:
    """One run, with one fault."""

    def __init__(self, player, settings, fault, number):
        self.player, self.settings, self.fault, self.number = player, settings, fault, number
        self.worlds, self.is_open, self.met, self.refused = [World()], False, False, []
        self.failures = 0
        self.denied = None
        # lines that were asked at once, with their answers
        self.ahead = []
        # at which step the fault fell
        self.fell = None

    def begin(self):
        """A log without files, and the fault armed."""
        kind, *words = self.fault
        lines = ["growth 0" if self.player.preload else "stand", "new", self.settings.line()]
        if kind == "growth":
            lines.append(f"growth {words[0]}")
        elif kind != "deny":
            lines.append(" ".join(["arm", kind, *map(str, words)]))
        for answer in self.player.ask_all(lines)[1:]:
            self.want(answer)

    def ask_ahead(self, lines):
        """Asks lines at once that are to be asked one behind another."""
        self.ahead += zip(lines, self.player.ask_all(lines))

    def ask(self, line):
        if not self.ahead:
            return self.player.ask(line)
        asked, answer = self.ahead.pop(0)
        if asked != line:
            raise Wrong(f"{asked} was asked in place of {line}")
        return answer

    def stands(self):
        """The lines that `stand` asks."""
        return ["stand", "grown"] if self.fault[0] == "growth" else ["stand"]

    def lines_of(self, step):
        """The lines that a step asks where no fault falls."""
        if step[0] == "crash":
            return [f"crash {step[1]}"]
        line = self.line_of(step) if step[0] in ("write", "compact", "purge") else step[0]
        return [line, *self.stands(), *["map"] * (step[0] in ("open", "read"))]

    @staticmethod
    def want(answer):
        if not answer.startswith("ok"):
            raise Wrong(f"{answer} in place of ok")
        return answer

    def play(self, steps, sure=0):
        """Plays all steps, and opens what a crash may leave at the end, and where the fault fell. It falls in none of the first so many ones."""
        self.begin()
        self.ask_ahead([line for step in steps[:sure] for line in self.lines_of(step)])
        for place, step in enumerate(steps):
            before = self.met
            self.step(place, step)
            if self.met and not before:
                self.fell = place
                self.compare_left()
        self.compare_left()
        return self.met

    def stand(self):
        """Whether the file system has stopped, and whether the engine has failed."""
        _, failures, stopped, failed = self.ask("stand").split(" ")
        rose, self.failures = int(failures) > self.failures, int(failures)
        grown = self.fault[0] == "growth" and self.ask("grown") == "grown 1"
        self.met = self.met or rose or stopped == "1" or grown
        return rose, stopped == "1", failed == "1"

    def step(self, place, step):
        """Plays a step, and brings the log back where it is refused for good."""
        kind = step[0]
        if kind == "open":
            return self.open()
        if kind == "close":
            self.want(self.ask("close"))
            _, stopped, _ = self.stand()
            self.is_open = False
            return self.restart() if stopped else None
        if kind == "crash":
            return self.crash(step[1], True)
        if kind == "read":
            return self.read()
        next_, line = self.next_of(step), self.line_of(step)
        if not self.ahead:
            self.ask_ahead([line, *self.stands()])
        answer = self.ask(line)
        rose, stopped, failed = self.stand()
        if answer.startswith("ok"):
            self.answered(step, answer, next_)
        else:
            self.refuse(step, answer, next_, rose, stopped, failed)
        if stopped:
            return self.restart()
        if failed:
            self.want(self.ask("close"))
            self.is_open = False
            _, stopped, _ = self.stand()
            return self.restart() if stopped else self.open()
        if not answer.startswith("ok"):
            self.compare()
        return None

    def read(self):
        """Reads all; what isn't read for want of memory is read then."""
        answer = self.ask("read")
        self.stand()
        short = self.fault[0] == "growth" and self.met
        if answer.startswith("refused memory") and short:
            self.refused.append("read: memory")
        elif not answer.startswith("map") or not self.is_told(self.worlds[-1], told_map(answer), short):
            raise Wrong(f"reads {answer} in place of {self.worlds[-1]}")
        elif "~memory" in answer or "!memory" in answer:
            self.refused.append("read: memory of entries")
        elif "!io" in answer:
            self.refused.append("read: io")
        self.compare()

    def next_of(self, step):
        """The world behind a step."""
        if step[0] in ("write", "compact"):
            return self.worlds[-1].take(step[1] if step[0] == "write" else [step])
        return self.worlds[-1]

    @staticmethod
    def line_of(step):
        """The line that plays a step."""
        if step[0] == "write":
            return f"write {int(step[2])} {spelled(step[1])}"
        return " ".join(map(str, step))

    def answered(self, step, answer, next_):
        """A step was answered."""
        if next_ is None:
            raise Wrong(f"{step} was answered, and leaves a hole")
        if step[0] == "compact" and answer != f"ok {self.worlds[-1].below(*step[1:])}":
            raise Wrong(f"{step}: {answer}")
        if step[0] in ("write", "compact"):
            self.worlds.append(next_)
        if step[0] in ("sync", "purge") or step[0] == "write" and step[2]:
            self.worlds = self.worlds[-1:]

    def refuse(self, step, answer, next_, rose, stopped, failed):
        """A step was refused: that has its cause."""
        kind = answer.split(" ")[1]
        self.refused.append(kind)
        self.met = self.met or self.denied is not None
        if (kind == "hole") != (next_ is None and not stopped and not failed and kind != "memory"):
            if not (next_ is None and kind in ("failed", "io")):
                raise Wrong(f"{step}: {answer}, and the world behind is {next_}")
        causes = {"hole": True, "io": rose or stopped or self.is_denied(answer), "try-again": rose and self.fault[0] == "space",
                  "failed": failed and (rose or stopped), "memory": self.fault[0] == "growth" and self.met}
        if not causes.get(kind, False):
            raise Wrong(f"{step}: {answer} has no cause (failures rose: {rose}, stopped: {stopped}, failed: {failed})")
        if self.fault[0] == "space" and kind == "io":
            raise Wrong(f"{step}: {answer}, and there was no space")
        if step[0] in ("write", "compact") and next_ is not None and (kind == "failed" or stopped):
            self.worlds.append(next_)
        elif step[0] in ("write", "compact") and kind in ("io", "try-again") and not stopped and rose:
            self.worlds = self.worlds[-1:]

    def is_denied(self, answer):
        return self.denied is not None

    def open(self):
        """Opens the log; where that is refused, again."""
        if self.is_open:
            return
        for _ in range(TRIES):
            answer = self.ask("open")
            rose, stopped, _ = self.stand()
            if answer.startswith("ok"):
                self.is_open = True
                if stopped:
                    self.restart_now()
                    continue
                return self.go_on()
            kind = answer.split(" ")[1]
            self.refused.append(f"open: {kind}")
            self.met = self.met or self.denied is not None
            causes = {"io": rose or stopped or self.denied is not None, "memory": self.fault[0] == "growth" and self.met}
            if not causes.get(kind, False):
                raise Wrong(f"open: {answer} has no cause")
            if stopped or kind == "io" and self.denied is not None:
                self.restart_now()
            elif self.fault[0] == "space":
                self.want(self.ask(f"arm space {self.fault[1]} {1 << 40}"))
        raise Wrong("the log doesn't open")

    def go_on(self):
        """Goes on from what a log holds that was opened."""
        told = told_map(self.ask("map"))
        fits = [world for world in self.worlds if self.is_told(world, told)]
        if not fits:
            raise Wrong(f"opens with {told}, none of {self.worlds}")
        self.worlds = fits[-1:]

    def is_told(self, world, told, short=False):
        """Whether the program tells this world, but for entries in a place that can't be read, or, where memory is short, for want of it."""
        may = ["!io"] * (self.denied is not None) + ["!memory"] * short
        if not may:
            return world.is_told(told)
        read = {}
        for group, (entries, together, keys) in told.items():
            of = world.groups.get(group, ({}, {}))[0]
            shows = {index: shown(of[index]) if text in may and index in of else text for index, text in entries.items()}
            read[group] = [shows, "" if self.may_be_apart(together, entries, may) else together, keys]
        return world.is_told(read)

    @staticmethod
    def may_be_apart(together, entries, may):
        """Whether entries may be read otherwise with one another than alone: refused, or as one of them was."""
        return f"!{together}" in may or together == "other" and any(text in may for text in entries.values())

    def restart(self):
        self.restart_now()
        self.open()

    def restart_now(self):
        """Goes on with what a crash leaves."""
        self.want(self.ask(f"crash {LEFT[self.number % len(LEFT)]}"))
        self.is_open, self.failures, self.denied = False, 0, None

    def crash(self, what, lives):
        self.want(self.ask(f"crash {what}"))
        self.is_open, self.failures, self.denied = False, 0, None

    def compare(self):
        """Compares an engine that lives."""
        told = told_map(self.ask("map"))
        if not self.is_told(self.worlds[-1], told):
            raise Wrong(f"holds {told} in place of {self.worlds[-1]}")

    def compare_left(self):
        """Opens what some crashes may leave now, by one worker or by four."""
        turns = [(LEFT[(self.number * EACH + turn) % len(LEFT)], ((1, 4), (4,), (1,))[turn % 3]) for turn in range(EACH)]
        lines = ["growth 0"] * (self.fault[0] == "growth")
        for what, workers in turns:
            for count in workers:
                lines += [self.settings.but(workers=count).line(), f"left {what}"]
        answered = [answer for line, answer in zip(lines, self.player.ask_all(lines)) if line.startswith("left")]
        for what, workers in turns:
            answers, answered = answered[:len(workers)], answered[len(workers):]
            if len(set(answers)) > 1 or not answers[0].startswith("map"):
                raise Wrong(f"{what}: left {answers}")
            told = told_map(answers[0])
            if not any(world.is_told(told) for world in self.worlds):
                raise Wrong(f"{what}: left {told}, none of {self.worlds}")
        self.want(self.ask(self.settings.line()))


class DeniedRun(Run):
    """A run in which a place of a file can't be read from a step on."""

    def __init__(self, player, settings, fault, number):
        super().__init__(player, settings, fault, number)
        self.at, self.pick = fault[1], fault[2]
        # how many places there are at that step
        self.places = 0

    def step(self, place, step):
        if place == self.at:
            self.deny()
        super().step(place, step)

    def deny(self):
        """A place can't be read: of those of the files that are there the one that is picked."""
        files = sorted(word.split("=") for word in self.ask("dump").split(" ")[1:])
        places = [(path, at) for path, text in files for at in places_of(path, bytes.fromhex(text), self.settings.block)]
        self.places = len(places)
        if self.pick < len(places):
            self.denied = path, at = places[self.pick]
            self.want(self.ask(f"arm deny {path} {at}"))


def places_of(path, bytes_, block):
    """Places of a file, one at least in each read of it: of each record the first byte, that behind its head (where its entries begin), the last one and that behind it; the file's last byte; and one each so many bytes as are read at once, so that a read of room behind the last record covers one."""
    records = read_file(bytes_, number_in(path), False).records
    parts = [at for record in records for at in (record.begin, record.begin + 16, record.end - 1, record.end)]
    return sorted({*range(0, len(bytes_), block), len(bytes_) - 1, *parts} - {-1, len(bytes_)}) if bytes_ else []
