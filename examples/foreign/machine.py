#!/usr/bin/env python3
"""A machine that shares nothing with ./join: it runs a program without moves, takes each next
event at random among those that are possible, and prints the log of its run.

    examples/foreign/machine.py --seed=7 < examples/lock.join | ./join check

It doesn't look for faults in the text: one that ./join refuses may end in an error of Python.
docs/CHECKING.md says what it numbers, and when."""

import argparse
import random
import sys
from typing import NamedTuple

from reading import Observed, Place, Reader, Rule

REQUESTS = {"halt": "halt", "fail": "detect"}
LARGEST = 2**64 - 1


class Channel(NamedTuple):
    word: str
    pair: tuple
    home: tuple


class Location(NamedTuple):
    word: str
    pair: tuple


class Machine:
    """The rules, messages and requests, each by its pair: the site that made it, and a number.

    Nothing moves, so the site of a location is always the one in its pair, and that site's root,
    with the number 0, is its host."""

    def __init__(self, text: str):
        program = Reader(text)
        self.drawn = [0] * len(program.sites)
        self.rules, self.atoms, self.halted = {}, {}, set()
        self.printed, self.ranks = [], {}
        names = {it.word: it for it in program.observed}
        roots = [self.draw(site) for site in range(len(program.sites))]
        names.update({it.word: Location(it.word, root) for it, root in zip(program.sites, roots)})
        for root, site in zip(roots, program.sites):
            self.name(root, site.definitions, names, set())
        self.outermost = set(names.values())
        for root, site in zip(roots, program.sites):
            self.lay(root, site.definitions, names)
            self.pour(root, site.body, names)

    def draw(self, site: int) -> tuple:
        self.drawn[site] += 1
        return site, self.drawn[site] - 1

    def name(self, location: tuple, definitions: list, names: dict, known: set):
        """Numbers the channels, then each location with its own channels."""
        for rule in definitions:
            for word, _ in rule.parts if isinstance(rule, Rule) else ():
                if word not in known:
                    names[word] = Channel(word, self.draw(location[0]), location)
                    known.add(word)
        for place in definitions:
            if isinstance(place, Place):
                names[place.word] = Location(place.word, self.draw(location[0]))
                self.name(names[place.word].pair, place.definitions, names, known)

    def lay(self, location: tuple, definitions: list, names: dict):
        """Numbers the rules, and then opens each location."""
        for rule in definitions:
            if isinstance(rule, Rule):
                self.rules[self.draw(location[0])] = location, rule, names
        for place in definitions:
            if isinstance(place, Place):
                inner = names[place.word].pair
                self.lay(inner, place.definitions, names)
                self.pour(inner, place.body, names)

    def pour(self, location: tuple, process: list, names: dict):
        for word, *rest in process:
            if word == "def":
                inner = dict(names)
                self.name(location, rest[0], inner, set())
                self.lay(location, rest[0], inner)
                self.pour(location, rest[1], inner)
                continue
            values = [int(it) if it.isdigit() else names[it] for it in rest[0]]
            self.send(location, names.get(word, word), values)

    def send(self, location: tuple, name, values: list):
        """Works a message out or prints it, which takes no number, or numbers it."""
        becomes = worked_out(name, values)
        if becomes:
            self.send(location, *becomes)
        elif isinstance(name, Observed) and name.count == len(values):
            self.printed.append(f"{name.word}({', '.join(map(self.spelled, values))})")
        else:
            at = name.home if isinstance(name, Channel) else location
            self.atoms[self.draw(self.numbered_at(location, at))] = at, name, values

    def numbered_at(self, sender: tuple, home: tuple) -> int:
        """The site that numbers a message: the one that sends it."""
        return sender[0]

    def spelled(self, name) -> str:
        if isinstance(name, int):
            return str(name)
        if isinstance(name, Observed) or name in self.outermost:
            return name.word
        return f"{name.word}'{self.ranks.setdefault(name, len(self.ranks) + 1)}"

    def is_dead(self, location: tuple) -> bool:
        return location in self.halted or (location[0], 0) in self.halted

    def possible(self) -> list:
        """All rules that may react, and all requests that can be met: an event's word, its first
        pair, and for each part of a pattern the messages to choose from."""
        waiting, found = {}, []
        for pair, (location, name, values) in self.atoms.items():
            waiting.setdefault((location, name, len(values)), []).append(pair)
            target = values[0] if name == "fail" else None
            is_met = isinstance(target, Location) and self.is_dead(target.pair)
            if not self.is_dead(location) and (is_met or name == "halt"):
                found.append((REQUESTS[name], pair, []))
        for pair, (location, rule, names) in self.rules.items():
            wanted = [(location, names[word], len(words)) for word, words in rule.parts]
            if not self.is_dead(location) and all(it in waiting for it in wanted):
                found.append(("react", pair, [waiting[it] for it in wanted]))
        return found

    def make(self, word: str, pair: tuple, took: list):
        """Makes an event, once it is chosen."""
        if word == "react":
            location, rule, names = self.rules[pair]
            received = dict(names)
            for (_, words), atom in zip(rule.parts, took):
                received.update(zip(words, self.atoms.pop(atom)[2]))
            self.pour(location, rule.body, received)
            return
        location, name, values = self.atoms.pop(pair)
        if name == "halt":
            self.halted.add(location)
        else:
            self.send(location, values[1], [])

    def run(self, budget: int, choices: random.Random) -> list:
        """The lines of the events."""
        lines = []
        while len(lines) < budget:
            possible = self.possible()
            if not possible:
                break
            word, pair, waiting = choices.choice(possible)
            took = [choices.choice(it) for it in waiting]
            pairs = " ".join(f"{site}.{number}" for site, number in [pair, *took])
            lines.append(f"{word} {pairs}")
            self.make(word, pair, took)
        return lines

    def trace(self) -> str:
        ending = "stopped" if self.possible() else "quiescent"
        return "".join(f"{it}\n" for it in [*self.printed, ending])


def worked_out(name, values: list):
    """The name and the values of the message that a sum or a comparison becomes, or None."""
    if name not in ("add", "same") or not all(isinstance(it, int) for it in values[:2]):
        return None
    left, right, *names = values
    if name == "same":
        return names[left != right], []
    return (names[0], [left + right]) if left + right <= LARGEST else None


def log_of(source: bytes, budget: int, events: list, trace: str) -> bytes:
    """The fields of a log. Its lengths count bytes."""
    kind = 1 if budget <= 1_000_000 else 2
    head = f"joinlog {kind}\nsource {len(source)}\n".encode("ascii") + source
    lines = [f"budget {budget}", f"events {len(events)}", *events, f"trace {len(trace)}"]
    return head + "\n".join(["", *lines, trace]).encode("ascii")


def run(source: bytes, seed: int, budget: int, machine=Machine) -> bytes:
    """The log of a run of the source."""
    made = machine(source.decode("latin-1"))
    events = made.run(budget, random.Random(seed))
    return log_of(source, budget, events, made.trace())


def main():
    parser = argparse.ArgumentParser(description=__doc__.partition("\n\n")[0])
    parser.add_argument("--seed", type=int, default=0, metavar="N", help="which order of events")
    parser.add_argument("--budget", type=int, default=1000, metavar="N", help="at most N events")
    words = parser.parse_args()
    sys.stdout.buffer.write(run(sys.stdin.buffer.read(), words.seed, words.budget))


if __name__ == "__main__":
    main()
