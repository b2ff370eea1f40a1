"""Replays a log, and says in words what each event took and made."""

from __future__ import annotations

import sys
from dataclasses import dataclass, field
from typing import Iterator, List, NamedTuple, Optional

from .log import Log, LogFault, read_log
from .scope import check
from .solution import Event, Location, Message, Number, Observed, Operation, Pair, Solution
from .source import TextFault

# a text may nest 400 levels, each of a few calls
sys.setrecursionlimit(20_000)


class ReplayFault(Exception):
    """A log that doesn't replay."""


class Words:
    """Writes names, messages and places of a solution."""

    def __init__(self, solution: Solution):
        self.solution = solution

    def name(self, name, ranks: Optional[dict] = None) -> str:
        """A name: what isn't of the outermost block has its pair, or its rank, behind it."""
        if isinstance(name, Observed):
            return self.solution.observed[name.index][0]
        if isinstance(name, Number):
            return str(name.value)
        if isinstance(name, Operation):
            return name.word
        spelling = self.solution.spellings[name.pair]
        if name in self.solution.outermost:
            return spelling
        if ranks is None:
            return f"{spelling}'{name.pair}"
        return f"{spelling}'{ranks.setdefault(name, len(ranks) + 1)}"

    def message(self, on, arguments, ranks: Optional[dict] = None) -> str:
        return f"{self.name(on, ranks)}({', '.join(self.name(it, ranks) for it in arguments)})"

    def atom(self, pair: Pair) -> str:
        atom = self.solution.atoms[pair]
        if isinstance(atom, Message):
            return self.message(atom.on, atom.arguments)
        return f"{atom.kind}({', '.join(map(self.name, atom.names))})"

    def location(self, pair: Pair) -> str:
        return self.name(Location(pair))

    def where(self, pair: Pair) -> str:
        """A site, or a site and a location that it hosts."""
        if self.solution.is_root(pair):
            return self.location(pair)
        return f"{self.location(self.solution.root(pair))}/{self.location(pair)}"


class Printed(NamedTuple):
    """A message that was printed, and the site that did."""

    site: int
    words: str


class Born(NamedTuple):
    """A location, and the site that hosts it at first."""

    location: Pair
    site: int


@dataclass
class Step:
    """An event with its words, or the beginning, which has no event."""

    number: int  # from 0, as in the journal
    event: Optional[Event] = None
    site: int = 0
    location: Optional[Pair] = None
    target: Optional[Pair] = None  # the site to which a location moves
    where: str = ""
    took: str = ""
    made: List[str] = field(default_factory=list)
    printed: List[Printed] = field(default_factory=list)
    atoms_made: List[Pair] = field(default_factory=list)
    born: List[Born] = field(default_factory=list)


class Replay:
    """A log that is replayed event after event."""

    def __init__(self, log: Log):
        self.log = log
        try:
            self.solution = Solution(check(log.source))
        except TextFault as fault:
            raise ReplayFault(f"the log's source is no program: {fault}") from fault
        self.words = Words(self.solution)

    def steps(self, first: int = 0, count: Optional[int] = None) -> Iterator[Step]:
        """What stands before event first, and the events from there on, as many as count says.
        All others are replayed too, without words."""
        last = len(self.log.events) if count is None else first + count
        for number, event in enumerate(self.log.events):
            if number == first:
                yield self.beginning(first)
            why = self.solution.why_not(event)
            if why:
                raise ReplayFault(f"no event {number}: {event}: {why}")
            if first <= number < last:
                yield self.step(number, event)
            else:
                self.solution.make(event)
        if first >= len(self.log.events):
            yield self.beginning(first)
        self.compare_trace()

    def beginning(self, first: int) -> Step:
        """All that stands is made here, and before event 0 what the opening printed is printed."""
        step = Step(first)
        step.born = [Born(it, self.solution.site_of(it)) for it in self.solution.hosts]
        if first == 0:
            step.printed = [self.new_printed(*it) for it in self.solution.made.printed]
        return step

    def step(self, number: int, event: Event) -> Step:
        site, location = self.solution.site_of_event(event)
        step = Step(number, event, site, location, where=self.words.where(location))
        took = event.pairs[1:] if event.kind == "react" else event.pairs
        step.took = " | ".join(map(self.words.atom, took))
        if event.kind == "move":
            step.target = self.solution.atoms[took[0]].names[0].pair
        made = self.solution.make(event)
        step.atoms_made = made.atoms
        step.born = [Born(it, self.solution.site_of(it)) for it in made.locations]
        step.printed = [self.new_printed(*it) for it in made.printed]
        step.made = [*map(self.new_location, made.locations), *map(self.new_atom, made.atoms)]
        return step

    def new_printed(self, location: Pair, on, arguments) -> Printed:
        return Printed(self.solution.site_of(location), self.words.message(on, arguments))

    def new_location(self, pair: Pair) -> str:
        return f"location {self.words.where(pair)}"

    def new_atom(self, pair: Pair) -> str:
        """An atom, and where it stands if that isn't at the site that made it."""
        location = self.solution.atoms[pair].location
        is_here = self.solution.site_of(location) == pair.site
        return self.words.atom(pair) + ("" if is_here else f" to {self.words.where(location)}")

    def ending(self) -> str:
        return "quiescent" if self.solution.is_quiescent() else "stopped"

    def ending_lines(self, first: int, count: Optional[int]) -> Iterator[str]:
        """How many events come behind those that are shown, and how the run ends."""
        more = len(self.log.events) - first - count if count is not None else 0
        if more > 0:
            yield f"({more} more events)"
        yield self.ending()

    def printed_names(self) -> dict:
        """The rank of each name that the trace prints with one, in order."""
        ranks = {}
        for on, arguments in self.solution.trace:
            self.words.message(on, arguments, ranks)
        return ranks

    def compare_trace(self):
        ranks = {}
        lines = [self.words.message(*it, ranks) for it in self.solution.trace]
        trace = "".join(f"{it}\n" for it in [*lines, self.ending()]).encode("ascii")
        if trace != self.log.trace:
            pairs = enumerate(zip(trace, self.log.trace))
            least = min(len(trace), len(self.log.trace))
            place = next((at for at, (one, other) in pairs if one != other), least)
            raise ReplayFault(f"no trace {place}: its events print something else from there on")


def replay_of(data: bytes) -> Replay:
    """The replay of a log's bytes. Raises ReplayFault where they are no log of a program."""
    try:
        return Replay(read_log(data))
    except LogFault as fault:
        raise ReplayFault(str(fault)) from fault
