"""Kills a program at random moments, over one directory after another, and asks what stands at each next start."""
import threading
import time
from collections import Counter

from running import Ended, Fault

STARTS = 40


class Killer:
    """Starts a program again and again over a directory, and kills it each time, in its opening or while it serves."""

    def __init__(self, room, random, settings, longest):
        self.room, self.random, self.settings, self.longest = room, random, settings, longest
        self.counts = Counter()
        self.wrong = []
        self.opening = 0.05

    def directory(self, name, kills):
        """Kills so often over a new directory, and shows in the end what stands."""
        self.room.use_settings(self.settings(self.random))
        root = self.room.root("killed", {})
        before = [self.room.subject.fresh()]
        self.counts["directories"] += 1
        for number in range(kills):
            try:
                before = self.kill(root, before)
            except Fault as wrong:
                self.wrong.append(f"{name}, kill {number}: {wrong}")
                return
        try:
            self.room.found(root, before)
        except Fault as wrong:
            self.wrong.append(f"{name}, at its end: {wrong}")

    def kill(self, root, before):
        """Starts and kills the program once; the states that may stand behind it."""
        random, subject = self.random, self.room.subject
        in_opening = random.random() < 0.3
        running = self.room.start(root)
        began = time.monotonic()
        delay = random.random() * (1.2 * self.opening if in_opening else self.longest) + (0 if in_opening else self.opening)
        timer = threading.Timer(delay, running.process.kill)
        timer.start()
        self.counts["kills"] += 1
        try:
            state, events = subject.opens(running)
        except Ended as ended:
            if ended.status != -9:
                raise
            self.counts["kills in an opening"] += 1
            return subject.unheard(before)
        finally:
            timer.cancel() if running.process.poll() is not None else None
        self.opening = 0.9 * self.opening + 0.1 * (time.monotonic() - began)
        place = self.room.place(state, before)
        self.counts["openings over what a kill left in a round"] += len(before) > 1
        self.counts["openings at which something of a round stood"] += place > 0
        return self.kill_serving(running, state, events)

    def kill_serving(self, running, state, events):
        """Feeds a program that serves until it is killed."""
        subject = self.room.subject
        plan = subject.plan(self.random, state, 150)
        running.feed(subject.text(plan))
        while running.hear():
            continue
        status = running.finish()
        heard = subject.hear(state, events + plan, running.told)
        if status != -9 or heard.is_cut or heard.refused_purges:
            raise Fault(f"status {status}, {heard.refused_purges} refused purges, or a cut: {running.complaint()[-300:]!r}")
        self.counts["answers"] += heard.answered()
        self.counts["kills while all was answered"] += heard.answered() == len(events) + len(plan)
        return heard.candidates(len(running.told))
