"""The example `append-lines` of the program `raft_log_examples`: a log to which each line of its input is appended, and answered once it is durable.

A state is the list of the lines that stand. A plan is the list of lines that are sent.
"""
from running import Ended, Fault

SIZES = [0, 0, 7, 7, 100, 100, 700, 3000, 20000]


def settings(_random):
    """None: the program has the usual settings."""
    return ""


class Appender:
    """What is asked of the program, and what is right."""

    name = "raft_log_examples"
    # A refused line ends it, with status 1.
    ends_at_a_refusal = True

    def __init__(self, program):
        self.program = program

    def words(self, _settings_path):
        """The command that runs it."""
        return self.program + ["append-lines", "log"]

    def fresh(self):
        """What stands where nothing was done."""
        return []

    def plan(self, random, lines, count):
        """Lines that tell themselves apart, of many lengths."""
        return [f"line {len(lines) + 1 + place} {random.getrandbits(64):x} {'x' * random.choice(SIZES)}" for place in range(count)]

    def text(self, lines):
        """What is sent."""
        return "".join(line + "\n" for line in lines)

    def answer_lines(self, _line):
        """How many lines answer a line."""
        return 1

    def opens(self, running):
        """Sends one line, waits until it is kept, and finds what stood before it: the state, and the line."""
        probe = self.probe = f"probe {running.process.pid}"
        running.feed(self.text([probe]))
        if not running.hear_until(lambda told: b" is kept\n" in told):
            raise Ended(running)
        return standing(running.told.decode()), [probe]

    def unheard(self, states):
        """What may stand behind an opening of which nothing was heard: the line that it was sent, too."""
        return states + [state + [self.probe] for state in states]

    def hear(self, lines, sent, told, may_refuse=False):
        """What a run answered of lines that were sent to it."""
        return Heard(lines, sent, told)

    def differs(self, found, candidates):
        """Says in which way a state is none of the candidates."""
        wanted = candidates[-1]
        apart = next((place for place, line in enumerate(found) if line not in wanted[place : place + 1]), len(found))
        return f"{len(found)} lines stand, of {len(candidates[0])} or {len(wanted)}; as they were sent up to {apart}"


def standing(told):
    """The lines that an opening says stand."""
    lines = []
    for line in told.split("\n"):
        if line.endswith(" is kept"):
            break
        front = f"{len(lines) + 1} is kept: "
        if not line.startswith(front):
            raise Fault(f"in the place of line {len(lines) + 1} stands {line[:100]!r}")
        lines.append(line[len(front) :])
    return lines


class Heard:
    """What a run answered: by which byte that it told each line was kept."""

    def __init__(self, lines, sent, told):
        self.lines, self.events, self.ends = lines, sent, []
        self.is_cut, self.refused_purges, self.refused_places = False, 0, 0
        # Lines that stand are told once they are durable; where none stands, the opening tells nothing.
        self.ready_end = 1 if lines else 0
        at = stood = 0
        for line in told.split(b"\n")[:-1]:
            at += len(line) + 1
            if b" is kept: " in line and not self.ends:
                stood += 1
                continue
            if line.decode() != f"{len(lines) + len(self.ends) + 1} is kept" or len(self.ends) == len(sent) or stood != len(lines):
                raise Fault(f"behind {len(self.ends)} answers it tells {line[:100]!r}")
            self.ends.append(at)

    def answered(self):
        """How many lines were answered."""
        return len(self.ends)

    def candidates(self, told):
        """What may stand where so many bytes were told: the answered lines, and the next one."""
        done = sum(end <= told for end in self.ends)
        return [self.lines + self.events[:end] for end in range(done, min(done + 1, len(self.events)) + 1)]
