"""Reads the text of a program, for the machine beside it."""

import re
import sys
from typing import NamedTuple

TOKEN = re.compile(r"[a-z][A-Za-z0-9_]*|[0-9]+|=>|[:|()\[\],;/]")


class Observed(NamedTuple):
    word: str
    count: int


class Rule(NamedTuple):
    """A rule, as it is read: its parts are words with the words of their parameters."""

    parts: list
    body: list


class Place(NamedTuple):
    """A site or a location, as it is read."""

    word: str
    definitions: list
    body: list


class Reader:
    """Reads a text. A process is the list of what stands side by side in it; a message or a
    request is its word and its arguments, a `def` its definitions and its process."""

    def __init__(self, text: str):
        self.tokens = TOKEN.findall(re.sub("#[^\n]*", "", text))[::-1]
        self.observed, self.sites = [], []
        if self.tokens[-3:] == [";", "2", "version"]:
            del self.tokens[-3:]
        while self.takes("observe"):
            word, _, count, _ = (self.tokens.pop() for _ in range(4))
            self.observed.append(Observed(word, int(count)))
        while self.takes("site"):
            self.sites.append(self.place(self.tokens.pop()))

    def takes(self, token: str) -> bool:
        found = self.tokens[-1:] == [token]
        if found:
            self.tokens.pop()
        return found

    def place(self, word: str) -> Place:
        self.takes("[")
        definitions = self.definitions()
        self.takes(":")
        body = self.process()
        self.takes("]")
        return Place(word, definitions, body)

    def definitions(self) -> list:
        found = [] if self.takes("none") else [self.definition()]
        while self.takes("and"):
            found.append(self.definition())
        return found

    def definition(self):
        word = self.tokens.pop()
        if self.tokens[-1] == "[":
            return self.place(word)
        parts = [(word, self.words())]
        while self.takes("|"):
            parts.append((self.tokens.pop(), self.words()))
        self.takes("=>")
        return Rule(parts, self.process())

    def words(self) -> list:
        found = []
        self.takes("(")
        while not self.takes(")"):
            found.append(self.tokens.pop())
            self.takes(",")
        return found

    def process(self) -> list:
        found = self.simple()
        while self.takes("|"):
            found += self.simple()
        return found

    def simple(self) -> list:
        if self.takes("("):
            inner = self.process()
            self.takes(")")
            return inner
        word = self.tokens.pop()
        if word == "def":
            definitions = self.definitions()
            self.takes("in")
            return [(word, definitions, self.process())]
        if word == "go":
            sys.exit("machine: a program with a `go` is none for this machine")
        return [] if word.isdigit() else [(word, self.words())]
