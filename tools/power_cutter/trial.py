"""A room in which a program is tried: its directories, its runs, and what stands behind each."""
import os
import shutil

from disk import write_tree
from running import Ended, Fault, NotShown, Running, Watch
from trace import read_trace, told_by


class Ran:
    """A run that was watched: its notes, the events that were asked, what was heard, its status, and how it began."""

    def __init__(self, notes, heard, status, before):
        self.notes, self.heard, self.status, self.before = notes, heard, status, before
        self.counts, self.told = told_by(notes)

    def candidates(self, told):
        """The states that may stand where so many bytes were told."""
        if self.heard is None or told < self.heard.ready_end:
            return self.before
        return self.heard.candidates(told)


    def done(self, told):
        """How many events were answered where so many bytes were told; -1 in the opening."""
        if self.heard is None or told < self.heard.ready_end:
            return -1
        return sum(end <= told for end in self.heard.ends)


class Room:
    """A directory for all that a trial writes, and the program that it is about."""

    def __init__(self, path, subject, library):
        self.path, self.subject, self.library = os.path.realpath(path), subject, library
        self.settings_path = None

    def use_settings(self, text):
        """The settings of the runs from now on."""
        self.settings_path = f"{self.path}/settings.toml" if text else None
        if text:
            with open(self.settings_path, "w") as file:
                file.write(text)

    def root(self, name, tree):
        """A root directory that holds a tree and nothing else."""
        path = f"{self.path}/{name}"
        shutil.rmtree(path, ignore_errors=True)
        write_tree(tree, path)
        return path

    def start(self, root, watch=None):
        """A run of the program."""
        return Running(self.subject.words(self.settings_path), root, watch)

    def found_state(self, root, candidates):
        """Opens what lies in a root, and closes it: the state that stands, which is one of those that may."""
        return candidates[self.found(root, candidates)]

    def found(self, root, candidates):
        """Opens what lies in a root, and closes it: its place among the states that may stand there."""
        running = self.start(root)
        try:
            state, _events = self.subject.opens(running)
            running.close_input()
            status = running.hear_all()
        finally:
            running.process.kill()
            running.process.wait()
        if status != 0:
            raise Fault(f"status {status} at a close: {running.complaint()[-300:]!r}")
        return self.place(state, candidates)

    def place(self, state, candidates):
        """The place of a state among those that may stand."""
        for place, each in enumerate(candidates):
            if each == state:
                return place
        raise Fault(self.subject.differs(state, candidates))

    def watched(self, root, before, random, count, fault="none", first=()):
        """A watched run over a root in which one of some states stands: it opens, serves first events and a plan, and closes."""
        trace = f"{self.path}/trace"
        if os.path.exists(trace):
            os.remove(trace)
        running = self.start(root, Watch(self.library, root, trace, fault))
        heard = None
        try:
            heard, status = self.serve(running, before, random, count, fault, first)
        finally:
            running.process.kill()
            running.process.wait()
        if not is_refusing(fault):
            self.demand_all(heard, status, fault)
        return Ran(read_trace(trace), heard, status, before if heard else self.subject.unheard(before))

    def demand_all(self, heard, status, fault):
        """A run in which no call was refused answers all, unless it was killed."""
        if status != 0 and not (status == -9 and fault.startswith("kill")):
            raise Fault(f"status {status} of a run without a refused call")
        if heard and (heard.is_cut or heard.refused_purges):
            raise Fault("a round is cut off, or a purge failed, without a cause")
        if heard and status == 0 and heard.answered() < len(heard.events):
            raise Fault(f"{heard.answered()} of {len(heard.events)} events are answered")

    def serve(self, running, before, random, count, fault, first):
        """What was heard of a run, or None where it didn't open; and its status."""
        try:
            state, shown = self.subject.opens(running)
        except Ended as ended:
            if fault == "none":
                raise
            return None, ended.status
        except NotShown:
            if not is_refusing(fault):
                raise
            running.close_input()
            return None, running.hear_all()
        self.place(state, before)
        plan = list(first) + self.subject.plan(random, state, count)
        running.feed(self.subject.text(plan), closes=True)
        status = running.hear_all()
        return self.subject.hear(state, shown + plan, running.told, may_refuse=is_refusing(fault)), status


def is_refusing(fault):
    """Whether a fault refuses calls, and doesn't kill."""
    return not fault.startswith(("none", "kill"))
