"""Says why each message and each request of a solution is left: the first cause of the table of
docs/LANGUAGE.md that is true of it."""

from __future__ import annotations

from typing import Dict, Iterator, List, NamedTuple

from .replay import Replay, Words
from .solution import Location, Message, Number, Observed, Operation, Pair, Request


class Left(NamedTuple):
    """A message or a request that is left, and why: the cause, and the same in names."""

    pair: Pair
    location: Pair
    cause: str
    why: str

    def __str__(self):
        return f"{self.pair} at {self.location} {self.cause}"


class Causes:
    """What is left of a solution."""

    def __init__(self, words: Words):
        self.words, self.solution = words, words.solution
        self.waiting = self.solution.messages_by_kind()
        # for each kind of message, a channel with a count, what its rules lack, rule by rule
        self.lacking: Dict[tuple, List[list]] = {}
        for rule in self.solution.rules.values():
            kinds = [self.solution.kind_of(rule, part) for part in rule.parts]
            missing = [part for part, kind in zip(rule.parts, kinds) if kind not in self.waiting]
            for kind in kinds:
                self.lacking.setdefault(kind, []).append(missing)

    def all(self) -> List[Left]:
        return [self.left(*it) for it in sorted(self.solution.atoms.items())]

    def left(self, pair: Pair, atom) -> Left:
        cause, why = self.cause(pair, atom)
        return Left(pair, atom.location, cause, why)

    def cause(self, pair: Pair, atom):
        """The cause, and in names what it is about."""
        if self.solution.is_dead(atom.location):
            root = self.solution.root(atom.location)
            halted = root if root in self.solution.marks else atom.location
            return "dead", f"{self.words.location(halted)} has halted"
        if isinstance(atom, Message):
            return self.cause_of_message(atom)
        return self.cause_of_request(pair, atom)

    def cause_of_message(self, message: Message):
        on, count = message.on, len(message.arguments)
        name = self.words.name(on)
        if isinstance(on, Location):
            return "place", f"{name} is a location"
        if isinstance(on, Number):
            return "number", f"{name} is a number"
        if isinstance(on, Operation):
            return "operation", f"this {name} can't be worked out"
        arguments = "1 argument" if count == 1 else f"{count} arguments"
        lacking = self.lacking.get((message.location, on, count))
        if isinstance(on, Observed) or lacking is None:
            who = f"{name} isn't declared" if isinstance(on, Observed) else f"no rule has {name}"
            return "count", f"{who} with {arguments}"
        if [] in lacking:
            return "ready", "a rule can take it"
        return "partner", "it waits for " + " or ".join(dict.fromkeys(map(self.parts, lacking)))

    def parts(self, parts: list) -> str:
        """Parts of a pattern, as they stand in the text."""
        listed = (f"{it.channel.text}({', '.join(w.text for w in it.parameters)})" for it in parts)
        return " | ".join(listed)

    def cause_of_request(self, pair: Pair, request: Request):
        if self.solution.can_be_met(pair):
            return "ready", "it can be met"
        target = request.names[0]
        name = self.words.name(target)
        if not isinstance(target, Location):
            return "target", f"{name} is no location"
        if request.kind == "fail":
            return "alive", f"{name} is live"
        if self.solution.is_root(request.location):
            return "root", "a site doesn't move"
        if not self.solution.is_root(target.pair):
            return "nosite", f"{name} is no site"
        return "gone", f"{name} is dead"


def left_lines(replay: Replay) -> Iterator[str]:
    """What is left, where, and why, each in a line."""
    for it in Causes(replay.words).all():
        where, atom = replay.words.where(it.location), replay.words.atom(it.pair)
        yield f"left at {where}: {atom}  {it.cause}: {it.why}"
