"""Looks up the names of a program, as docs/LANGUAGE.md has it, and finds its first fault."""

from __future__ import annotations

from collections import ChainMap
from typing import NamedTuple, Optional

from .source import (
    LIMITS,
    OPERATIONS,
    Ask,
    Define,
    Literal,
    Parallel,
    Place,
    Program,
    Rule,
    Send,
    TextFault,
    Word,
    parse,
)

# of two faults at one place the one that stands first here is reported
RANKS = [f"scope {it}" for it in range(1, 7)] + [f"arity {it}" for it in range(1, 5)]


class Meaning(NamedTuple):
    """What a name is: `observed`, `channel`, `location`, or `parameter`, of which nothing is
    known."""

    kind: str
    count: Optional[int] = None
    home: Optional[Word] = None


class Checker:
    """Walks a program and notes each fault."""

    def __init__(self, version: int):
        self.version, self.faults = version, []

    def fault(self, refusal: str, place: int):
        self.faults.append((place, RANKS.index(refusal)))

    def program(self, program: Program):
        limit = LIMITS[program.version].sites
        for place in program.openings[limit:]:
            self.fault("scope 6", place)
        names = ChainMap({})
        for word, count in program.observed:
            self.declare(names, word, Meaning("observed", count))
        for site in program.sites:
            self.declare(names, site.name, Meaning("location"))
            self.block(names, site.definitions, site.name)
        for site in program.sites:
            self.bodies(names, site.definitions)
            self.process(names, site.body)

    def declare(self, names: ChainMap, word: Word, meaning: Meaning):
        first = names.maps[0].setdefault(word.text, meaning)
        if first is meaning:
            return
        if first.kind != "channel" or meaning.kind != "channel":
            self.fault("scope 3", word.place)
            return
        if first.home != meaning.home:
            self.fault("scope 2", word.place)
        if first.count != meaning.count:
            self.fault("arity 2", word.place)

    def block(self, names: ChainMap, definitions: list, home: Optional[Word]):
        """Declares what the definitions of one block define. Their rules stand at the location
        home, which is None where that has no name in this block."""
        for definition in definitions:
            if isinstance(definition, Place):
                self.declare(names, definition.name, Meaning("location"))
                self.block(names, definition.definitions, definition.name)
            else:
                for part in definition.parts:
                    count = len(part.parameters)
                    self.declare(names, part.channel, Meaning("channel", count, home))

    def bodies(self, names: ChainMap, definitions: list):
        for definition in definitions:
            if isinstance(definition, Place):
                self.bodies(names, definition.definitions)
                self.process(names, definition.body)
            else:
                self.rule(names, definition)

    def rule(self, names: ChainMap, rule: Rule):
        channels, parameters = set(), {}
        for part in rule.parts:
            if part.channel.text in channels:
                self.fault("scope 5", part.channel.place)
            channels.add(part.channel.text)
            for word in part.parameters:
                if word.text in parameters:
                    self.fault("scope 4", word.place)
                parameters[word.text] = Meaning("parameter")
        self.process(names.new_child(parameters), rule.body)

    def process(self, names: ChainMap, process):
        if isinstance(process, Parallel):
            for member in process.processes:
                self.process(names, member)
        elif isinstance(process, Define):
            inner = names.new_child({})
            self.block(inner, process.definitions, None)
            self.bodies(inner, process.definitions)
            self.process(inner, process.body)
        elif isinstance(process, Send):
            self.send(names, process)
        else:
            self.ask(names, process)

    def look_up(self, names: ChainMap, word) -> Optional[Meaning]:
        if isinstance(word, Literal):
            return None
        found = names.get(word.text)
        if found is None:
            self.fault("scope 1", word.place)
        return found

    def message(self, names: ChainMap, word: Word, count: int):
        """A name that stands for a message with that many arguments."""
        found = self.look_up(names, word)
        if found and found.kind == "location":
            self.fault("arity 3", word.place)
        elif found and found.count not in (None, count):
            self.fault("arity 1", word.place)

    def send(self, names: ChainMap, send: Send):
        values = send.arguments
        if self.version == 2 and send.on.text in OPERATIONS:
            # the names behind the two numbers: the sum's takes it, those of `same` take nothing
            for word in values[2:]:
                self.message(names, word, 1 if send.on.text == "add" else 0)
            values = values[:2]
        else:
            self.message(names, send.on, len(values))
        for word in values:
            self.look_up(names, word)

    def ask(self, names: ChainMap, ask: Ask):
        if not ask.names:
            return
        target, continuation = ask.names
        found = self.look_up(names, target)
        if found and found.kind in ("channel", "observed"):
            self.fault("arity 4", target.place)
        self.message(names, continuation, 0)


def check(text: bytes) -> Program:
    """The program of a text. Raises TextFault where the text is refused."""
    program = parse(text)
    checker = Checker(program.version)
    checker.program(program)
    if checker.faults:
        place, rank = min(checker.faults)
        raise TextFault(RANKS[rank], place)
    return program
