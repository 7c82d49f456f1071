"""Voters by the table of docs/model/VOTER.md, written for this folder alone: it shares nothing with the crates.

A request is a line of a session, as a list of words. A voter takes it and answers with the text of its reply.
"""
MOST = 2**63 - 1
MOST_ENTRIES, MOST_BYTES_OF_AN_ENTRY, MOST_BYTES = 1024, 65_535, 1_048_576


def split_append(words):
    """Term, previous index and term, commit and entries of an append's words; an entry is its term and its bytes in hex."""
    term, index, index_term = (int(word) for word in words[2:5])
    rest = words[5:]
    commit = 0
    if rest and ":" not in rest[0]:
        commit, rest = int(rest[0]), rest[1:]
    entries = [(int(word.split(":")[0]), word.split(":")[1]) for word in rest]
    return term, index, index_term, commit, entries


def is_in_range(words):
    """Whether no number of a request is past what may be asked."""
    if words[0] != "append":
        return all(int(word) <= MOST for word in words[2:])
    term, index, index_term, commit, entries = split_append(words)
    sizes = [len(data) // 2 for _, data in entries]
    return (
        max([term, index_term, commit, index + len(entries)] + [term for term, _ in entries]) <= MOST
        and len(entries) <= MOST_ENTRIES
        and max(sizes, default=0) <= MOST_BYTES_OF_AN_ENTRY
        and sum(sizes) <= MOST_BYTES
    )


class Voter:
    """What one group keeps."""

    def __init__(self):
        self.term, self.vote = 0, None
        self.base, self.base_term, self.commit = 0, 0, 0
        self.entries = []

    def __eq__(self, other):
        return vars(self) == vars(other)

    def copy(self):
        """The same voter once more."""
        other = Voter()
        vars(other).update(vars(self), entries=list(self.entries))
        return other

    def last(self):
        """The last index."""
        return self.base + len(self.entries)

    def term_at(self, index):
        """The term at an index, or None where there is none."""
        if index == self.base:
            return self.base_term
        if self.base < index <= self.last():
            return self.entries[index - self.base - 1][0]
        return None

    def raise_term(self, term):
        """A higher term is taken, and clears the vote."""
        if term > self.term:
            self.term, self.vote = term, None

    def take(self, words):
        """Takes a request in range, and answers it."""
        return getattr(self, "take_" + words[0])(words)

    def take_vote(self, words):
        """A candidate asks for the vote."""
        term, candidate, index, index_term = (int(word) for word in words[2:])
        if term < self.term:
            return f"Denied {self.term}"
        self.raise_term(term)
        is_current = (index_term, index) >= (self.term_at(self.last()), self.last())
        if self.vote in (None, candidate) and is_current:
            self.vote = candidate
            return f"Granted {term}"
        return f"Denied {term}"

    def take_append(self, words):
        """A leader sends entries."""
        term, index, index_term, commit, entries = split_append(words)
        if term < self.term:
            return f"Stale {self.term}"
        self.raise_term(term)
        if index < self.base:
            return f"Base {self.base}"
        if self.term_at(index) != index_term:
            return f"Mismatch {min(self.last(), max(index - 1, 0))}"
        matched = index + len(entries)
        for place, entry in enumerate(entries):
            if self.term_at(index + 1 + place) != entry[0]:
                self.entries[index + place - self.base :] = entries[place:]
                break
        self.commit = max(self.commit, min(commit, matched))
        return f"Matched {matched}"

    def take_compact(self, words):
        """The log is compacted up to an index."""
        index = int(words[2])
        if self.base < index <= min(self.last(), self.commit):
            term = self.term_at(index)
            del self.entries[: index - self.base]
            self.base, self.base_term = index, term
        return f"Base {self.base}"

    def take_install(self, words):
        """A leader sends a snapshot."""
        term, index, entry_term = (int(word) for word in words[2:])
        if term < self.term:
            return f"Stale {self.term}"
        self.raise_term(term)
        if index > self.base:
            if self.term_at(index) == entry_term:
                del self.entries[: index - self.base]
            else:
                self.entries = []
            self.base, self.base_term = index, entry_term
            self.commit = max(self.commit, index)
        return f"Base {self.base}"

    def take_read(self, words):
        """Entries are asked for."""
        first, end = int(words[2]), int(words[3])
        if first <= self.base:
            return f"Gone {self.base}"
        if first >= end:
            return "Entries"
        if end > self.last() + 1:
            return f"Unknown {self.last()}"
        told = "Entries"
        for index in range(first, end):
            term, data = self.entries[index - self.base - 1]
            told += f" {index}:{term}:{data}"
        return told

    def take_status(self, _words):
        """The state is asked for."""
        vote = "-" if self.vote is None else self.vote
        last = self.last()
        return f"Status {self.term} {vote} {self.base} {self.base_term} {last} {self.term_at(last)} {self.commit}"

    def take_retire(self, _words):
        """The group is retired."""
        self.__init__()
        return "Retired"


class World:
    """Each group's voter; one that took nothing is fresh."""

    def __init__(self):
        self.voters = {}

    def __eq__(self, other):
        groups = set(self.voters) | set(other.voters)
        return all(self.voter(group) == other.voter(group) for group in groups)

    def voter(self, group):
        """The voter of a group."""
        return self.voters.get(group) or Voter()

    def take(self, words):
        """A request is taken by its group's voter; its reply, `Refused` out of range."""
        if not is_in_range(words):
            return "Refused"
        group = int(words[1])
        return self.voters.setdefault(group, Voter()).take(words)

    def copy(self):
        """The same voters once more."""
        other = World()
        other.voters = {group: voter.copy() for group, voter in self.voters.items()}
        return other
