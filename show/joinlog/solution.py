"""The numbered solution of docs/MACHINE.md: how a program opens, and what an event does."""

from __future__ import annotations

from collections import ChainMap
from dataclasses import dataclass
from typing import List, NamedTuple, Optional, Union

from .source import OPERATIONS, Ask, Define, Literal, Parallel, Place, Program, Send

LARGEST = 2**64 - 1


class Pair(NamedTuple):
    """The number of a location, channel, rule, message or request: a site and a number there."""

    site: int
    number: int

    def __str__(self):
        return f"{self.site}.{self.number}"


@dataclass(frozen=True)
class Observed:
    index: int


@dataclass(frozen=True)
class Channel:
    pair: Pair
    home: Pair


@dataclass(frozen=True)
class Location:
    pair: Pair


@dataclass(frozen=True)
class Number:
    value: int


@dataclass(frozen=True)
class Operation:
    """`add` or `same`, which stand as the name of a message alone."""

    word: str


Name = Union[Observed, Channel, Location, Number, Operation]


class Message(NamedTuple):
    location: Pair
    on: Name
    arguments: List[Name]


class Request(NamedTuple):
    """A `go`, `fail` or `halt` that stands. A `halt` has no names."""

    location: Pair
    kind: str
    names: List[Name]


class LaidRule(NamedTuple):
    location: Pair
    parts: list
    body: object
    names: ChainMap


class Event(NamedTuple):
    """A line of a log: its word, and the pairs behind it."""

    kind: str
    pairs: List[Pair]

    def __str__(self):
        return " ".join([self.kind, *map(str, self.pairs)])


REQUESTS = {"move": "go", "halt": "halt", "detect": "fail"}


class Made(NamedTuple):
    """What an event, or the opening, made."""

    atoms: List[Pair]
    printed: list  # of a location, an observed name and its arguments
    locations: List[Pair]


class Solution:
    """A numbered solution. An atom is a message or a request."""

    def __init__(self, program: Program):
        self.version = program.version
        self.observed = [(word.text, count) for word, count in program.observed]
        self.counts = [0] * len(program.sites)
        self.hosts, self.marks = {}, set()
        self.rules, self.atoms, self.trace = {}, {}, []
        self.spellings = {}
        self.made = Made([], [], [])
        self.open(program)

    # ---- the opening

    def open(self, program: Program):
        names = {word.text: Observed(at) for at, (word, _) in enumerate(program.observed)}
        if self.version == 2:
            names.update({it: Operation(it) for it in OPERATIONS})
        names = ChainMap(names)
        for number, site in enumerate(program.sites):
            names[site.name.text] = self.new_location(number, site.name.text, None)
        roots = [Pair(number, 0) for number in range(len(program.sites))]
        for root, site in zip(roots, program.sites):
            self.name(root, site.definitions, names)
        # the names that are printed as they are spelled
        self.outermost = set(names.values())
        for root, site in zip(roots, program.sites):
            self.lay(root, site.definitions, names)
            self.pour(root, site.body, names)

    # ---- what the whole asks of a location

    def root(self, location: Pair) -> Pair:
        return self.hosts[location] or location

    def site_of(self, location: Pair) -> int:
        return self.root(location).site

    def is_dead(self, location: Pair) -> bool:
        return location in self.marks or self.hosts[location] in self.marks

    def is_root(self, location: Pair) -> bool:
        return self.hosts[location] is None

    # ---- naming, laying, pouring

    def draw(self, site: int) -> Pair:
        pair = Pair(site, self.counts[site])
        self.counts[site] += 1
        return pair

    def new_location(self, site: int, spelling: str, host: Optional[Pair]) -> Location:
        pair = self.draw(site)
        self.hosts[pair] = host
        self.spellings[pair] = spelling
        self.made.locations.append(pair)
        return Location(pair)

    def name(self, location: Pair, definitions: list, names: ChainMap):
        """Gives numbers to what the definitions define, and puts the names into the innermost
        block of names."""
        site = self.site_of(location)
        self.name_channels(location, site, definitions, names)
        for definition in definitions:
            if isinstance(definition, Place):
                spelling = definition.name.text
                names[spelling] = self.new_location(site, spelling, self.root(location))
                home = names[spelling].pair
                self.name_channels(home, site, definition.definitions, names)

    def name_channels(self, home: Pair, site: int, definitions: list, names: ChainMap):
        here = names.maps[0]
        for definition in definitions:
            if isinstance(definition, Place):
                continue
            for part in definition.parts:
                spelling = part.channel.text
                if spelling not in here:
                    here[spelling] = Channel(self.draw(site), home)
                    self.spellings[here[spelling].pair] = spelling

    def lay(self, location: Pair, definitions: list, names: ChainMap):
        self.lay_rules(location, definitions, names)
        for definition in definitions:
            if isinstance(definition, Place):
                inner = names[definition.name.text].pair
                self.lay_rules(inner, definition.definitions, names)
                self.pour(inner, definition.body, names)

    def lay_rules(self, location: Pair, definitions: list, names: ChainMap):
        for it in definitions:
            if not isinstance(it, Place):
                pair = self.draw(self.site_of(location))
                self.rules[pair] = LaidRule(location, it.parts, it.body, names)

    def pour(self, location: Pair, process, names: ChainMap):
        if isinstance(process, Parallel):
            for member in process.processes:
                self.pour(location, member, names)
        elif isinstance(process, Define):
            inner = names.new_child({})
            self.name(location, process.definitions, inner)
            self.lay(location, process.definitions, inner)
            self.pour(location, process.body, inner)
        elif isinstance(process, Send):
            on = names[process.on.text]
            self.send(location, on, [self.filled(it, names) for it in process.arguments])
        elif isinstance(process, Ask):
            asked = [names[word.text] for word in process.names]
            self.put(self.site_of(location), Request(location, process.kind, asked))

    def filled(self, argument, names: ChainMap) -> Name:
        if isinstance(argument, Literal):
            return Number(argument.value)
        return names[argument.text]

    def put(self, site: int, atom):
        pair = self.draw(site)
        self.atoms[pair] = atom
        self.made.atoms.append(pair)

    def send(self, location: Pair, on: Name, arguments: List[Name]):
        """Pours a message: it is worked out, printed, put at its channel's home, or stays."""
        if isinstance(on, Operation):
            becomes = worked_out(on.word, arguments)
            if becomes:
                self.send(location, *becomes)
                return
        if isinstance(on, Observed) and self.observed[on.index][1] == len(arguments):
            self.trace.append((on, arguments))
            self.made.printed.append((location, on, arguments))
            return
        at = on.home if isinstance(on, Channel) else location
        self.put(self.site_of(location), Message(at, on, arguments))

    # ---- events

    def site_of_event(self, event: Event):
        """The site and the location of a possible event."""
        known = self.rules if event.kind == "react" else self.atoms
        location = known[event.pairs[0]].location
        return self.site_of(location), location

    def why_not(self, event: Event) -> Optional[str]:
        """Why an event isn't possible, in words, or None where it is."""
        first, *others = event.pairs
        if event.kind == "react":
            return self.why_no_reaction(first, others)
        atom = self.atoms.get(first)
        if not isinstance(atom, Request) or atom.kind != REQUESTS[event.kind]:
            return f"{first} is no {REQUESTS[event.kind]} that stands"
        if self.is_dead(atom.location):
            return "its location is dead"
        if event.kind == "move":
            return self.why_no_move(atom)
        if event.kind == "detect":
            target = atom.names[0]
            is_seen = isinstance(target, Location) and self.is_dead(target.pair)
            return None if is_seen else "what it waits for is no dead location"
        return None

    def why_no_reaction(self, number: Pair, took: List[Pair]) -> Optional[str]:
        rule = self.rules.get(number)
        if rule is None:
            return f"there is no rule {number}"
        if self.is_dead(rule.location):
            return "the location of its rule is dead"
        if len(took) != len(rule.parts):
            return f"its rule takes another number of messages than {len(took)}"
        for pair, part in zip(took, rule.parts):
            atom = self.atoms.get(pair)
            if not isinstance(atom, Message):
                return f"no message {pair} stands"
            if atom.location != rule.location or atom.on != rule.names[part.channel.text]:
                return f"the message {pair} isn't on {part.channel.text} of its rule"
            if len(atom.arguments) != len(part.parameters):
                return f"the message {pair} has another number of arguments than its rule wants"
        return None

    def why_no_move(self, request: Request) -> Optional[str]:
        target = request.names[0]
        if self.is_root(request.location):
            return "a site doesn't move"
        if not isinstance(target, Location) or not self.is_root(target.pair):
            return "its target is no site"
        if self.is_dead(target.pair) and self.version == 1:
            return "its target is dead"
        return None

    def make(self, event: Event) -> Made:
        """Makes a possible event, and answers what it made."""
        self.made = Made([], [], [])
        first, *others = event.pairs
        if event.kind == "react":
            self.react(self.rules[first], others)
            return self.made
        request = self.atoms.pop(first)
        if event.kind == "halt":
            self.marks.add(request.location)
            return self.made
        target, continuation = request.names
        if event.kind == "move":
            self.hosts[request.location] = target.pair
        # what moves to a dead site falls with it, and nothing goes on
        if event.kind == "detect" or not self.is_dead(target.pair):
            self.send(request.location, continuation, [])
        return self.made

    def react(self, rule: LaidRule, took: List[Pair]):
        received = {}
        for pair, part in zip(took, rule.parts):
            arguments = self.atoms.pop(pair).arguments
            received.update(zip((it.text for it in part.parameters), arguments))
        self.pour(rule.location, rule.body, rule.names.new_child(received))

    def can_be_met(self, pair: Pair) -> bool:
        """Whether a request that stands can be met."""
        kind = next(it for it, word in REQUESTS.items() if word == self.atoms[pair].kind)
        return self.why_not(Event(kind, [pair])) is None

    def messages_by_kind(self) -> dict:
        """Some message of each kind that stands: a location, a name and a count of arguments."""
        return {
            (atom.location, atom.on, len(atom.arguments)): pair
            for pair, atom in self.atoms.items()
            if isinstance(atom, Message)
        }

    def kind_of(self, rule: LaidRule, part) -> tuple:
        """The kind of the messages that fit a part of a rule's pattern."""
        return rule.location, rule.names[part.channel.text], len(part.parameters)

    def is_quiescent(self) -> bool:
        """Whether no event is possible."""
        if any(isinstance(it, Request) and self.can_be_met(at) for at, it in self.atoms.items()):
            return False
        waiting = self.messages_by_kind()
        return not any(
            all(self.kind_of(rule, part) in waiting for part in rule.parts)
            and not self.is_dead(rule.location)
            for rule in self.rules.values()
        )


def worked_out(word: str, arguments: List[Name]):
    """The name and the arguments of the message that an operation becomes, or None where it
    stays."""
    if not all(isinstance(it, Number) for it in arguments[:2]):
        return None
    left, right = (it.value for it in arguments[:2])
    if word == "same":
        return (arguments[2] if left == right else arguments[3]), []
    return (arguments[2], [Number(left + right)]) if left + right <= LARGEST else None
