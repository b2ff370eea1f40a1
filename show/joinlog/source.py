"""Reads the text of a program, as docs/LANGUAGE.md has it: its tokens, and its tree."""

from __future__ import annotations

import re
from typing import List, NamedTuple, Union

KEYWORDS = ("observe", "site", "def", "in", "and", "go", "fail", "halt", "none")
# keywords too in a text that begins `version 2;`, each with how many values and how many names
# it takes
OPERATIONS = {"add": (2, 1), "same": (2, 2)}
SIZE_LIMIT = 1_048_576
ARGUMENT_LIMIT = 255


class Limits(NamedTuple):
    """What depends on the version of a text."""

    number: int
    levels: int
    sites: int


LIMITS = {1: Limits(255, 200, 64), 2: Limits(2**64 - 1, 400, 256)}

TOKEN = re.compile(
    rb"(?P<blank>[ \t\n\r]+|\#[^\n]*)|(?P<name>[a-z][A-Za-z0-9_]*)|(?P<number>[0-9]+)"
    rb"|(?P<sign>=>|[:|()\[\],;/])"
)


class TextFault(Exception):
    """A text that is refused: the refusal, its place, and what could stand there."""

    def __init__(self, refusal: str, place: int, wanted=()):
        super().__init__(f"{refusal} at {place}")
        self.refusal, self.place, self.wanted = refusal, place, tuple(wanted)


class Token(NamedTuple):
    """A token. The kind is `name`, `number`, `end`, or the keyword or sign itself."""

    kind: str
    text: str
    place: int


class Word(NamedTuple):
    """A name where it stands in the text."""

    text: str
    place: int


class Literal(NamedTuple):
    """A number that stands as an argument."""

    value: int


class Part(NamedTuple):
    """A part of a join pattern."""

    channel: Word
    parameters: List[Word]


class Rule(NamedTuple):
    parts: List[Part]
    body: "Process"


class Place(NamedTuple):
    """A location, or a site. A site's definitions may be locations too."""

    name: Word
    definitions: list
    body: "Process"


class Parallel(NamedTuple):
    processes: list


class Define(NamedTuple):
    definitions: list
    body: "Process"


class Send(NamedTuple):
    """A message. One on `add` or `same` is an operation."""

    on: Word
    arguments: List[Union[Word, Literal]]


class Ask(NamedTuple):
    """A `go`, `fail` or `halt`. Its names are the target and the continuation."""

    kind: str
    names: List[Word]


Process = Union[Parallel, Define, Send, Ask]


class Program(NamedTuple):
    version: int
    observed: list  # of a word and its count
    sites: List[Place]
    openings: List[int]  # the places of the words `site`


def value_of(digits: str) -> int:
    """The value of a number, or one that is too large for any version."""
    digits = digits.lstrip("0") or "0"
    return int(digits) if len(digits) <= 20 else 10**20


def raw_tokens(text: bytes):
    """The tokens of a text, and the place at which none begins, or None."""
    at, tokens = 0, []
    while at < len(text):
        found = TOKEN.match(text, at)
        if not found:
            return tokens, at
        if found.lastgroup != "blank":
            word = found.group().decode("ascii")
            kind = word if found.lastgroup == "sign" else found.lastgroup
            tokens.append(Token(kind, word, at))
        at = found.end()
    return tokens, None


def version_of(tokens) -> int:
    """2 where the text begins `version 2;`, whatever blanks are between, and else 1."""
    head = tokens[:3]
    begins = [it.kind for it in head] == ["name", "number", ";"] and head[0].text == "version"
    return 2 if begins and value_of(head[1].text) == 2 else 1


def with_keywords(token: Token, version: int) -> Token:
    is_keyword = token.text in KEYWORDS or (version == 2 and token.text in OPERATIONS)
    return token._replace(kind=token.text) if is_keyword else token


def tokens_of(text: bytes):
    """The version of a text and its tokens, the last one being its end."""
    if len(text) > SIZE_LIMIT:
        raise TextFault("lex 1", SIZE_LIMIT)
    tokens, wrong = raw_tokens(text)
    version = version_of(tokens)
    for token in tokens:
        if token.kind == "number" and value_of(token.text) > LIMITS[version].number:
            raise TextFault("lex 3", token.place)
    if wrong is not None:
        raise TextFault("lex 2", wrong)
    end = Token("end", "", len(text))
    return version, [with_keywords(it, version) for it in tokens] + [end]


class Parser:
    """Reads the tree from the tokens, from left to right, and knows what may stand next."""

    def __init__(self, version: int, tokens: List[Token]):
        self.version, self.tokens = version, tokens
        self.at, self.level, self.wanted = 0, 0, []

    @property
    def next(self) -> Token:
        return self.tokens[self.at]

    def sees(self, kind: str) -> bool:
        self.wanted.append(kind)
        return self.next.kind == kind

    def takes(self, kind: str) -> bool:
        """Takes the next token where it is of the kind."""
        if not self.sees(kind):
            return False
        self.at += 1
        self.wanted = []
        return True

    def need(self, kind: str) -> Token:
        token = self.next
        if not self.takes(kind):
            self.refuse()
        return token

    def refuse(self):
        raise TextFault("grammar 1", self.next.place, dict.fromkeys(self.wanted))

    def opens(self, kind: str) -> bool:
        """Takes a token that opens a level, where it is the next one."""
        place = self.next.place
        if self.sees(kind) and self.level == LIMITS[self.version].levels:
            raise TextFault("grammar 2", place)
        taken = self.takes(kind)
        self.level += taken
        return taken

    def need_open(self, kind: str):
        if not self.opens(kind):
            self.refuse()

    def word(self) -> Word:
        token = self.need("name")
        return Word(token.text, token.place)

    def number(self, largest: int, smallest: int = 0) -> int:
        if not (self.sees("number") and smallest <= value_of(self.next.text) <= largest):
            self.refuse()
        return value_of(self.need("number").text)

    def program(self) -> Program:
        if self.version == 2:
            self.at = 3
        observed = []
        while self.takes("observe"):
            word = self.word()
            self.need("/")
            observed.append((word, self.number(ARGUMENT_LIMIT)))
            self.need(";")
        openings, sites = [], []
        while not sites or not self.sees("end"):
            openings.append(self.need("site").place)
            sites.append(self.place(self.word(), self.definition))
        return Program(self.version, observed, sites, openings)

    def place(self, name: Word, definition) -> Place:
        self.need_open("[")
        definitions = self.definitions(definition)
        self.need(":")
        body = self.process()
        self.need("]")
        self.level -= 1
        return Place(name, definitions, body)

    def definitions(self, definition) -> list:
        if self.takes("none"):
            return []
        found = [definition()]
        while self.takes("and"):
            found.append(definition())
        return found

    def definition(self):
        name = self.word()
        return self.place(name, self.rule) if self.sees("[") else self.rule_from(name)

    def rule(self) -> Rule:
        return self.rule_from(self.word())

    def rule_from(self, channel: Word) -> Rule:
        parts = [Part(channel, self.listed(self.word))]
        while self.takes("|"):
            channel = self.word()
            parts.append(Part(channel, self.listed(self.word)))
        self.need("=>")
        return Rule(parts, self.process())

    def listed(self, member) -> list:
        """Members in parentheses, any number of them up to the limit."""
        self.need("(")
        if self.takes(")"):
            return []
        members = [member()]
        while len(members) < ARGUMENT_LIMIT and self.takes(","):
            members.append(member())
        self.need(")")
        return members

    def argument(self):
        if self.version == 2 and self.sees("number"):
            return Literal(self.number(LIMITS[2].number))
        return self.word()

    def fixed(self, *members) -> list:
        """As many members in parentheses as are given."""
        self.need("(")
        found = []
        for member in members:
            if found:
                self.need(",")
            found.append(member())
        self.need(")")
        return found

    def process(self):
        found = []
        while True:
            if self.opens("def"):
                definitions = self.definitions(self.definition)
                self.need("in")
                found.append(Define(definitions, self.process()))
                self.level -= 1
                break
            found.append(self.simple())
            if not self.takes("|"):
                break
        return found[0] if len(found) == 1 else Parallel(found)

    def simple(self):
        if self.opens("("):
            inner = self.process()
            self.need(")")
            self.level -= 1
            return inner
        if self.sees("name"):
            on = self.word()
            return Send(on, self.listed(self.argument))
        for kind, count in (("go", 2), ("fail", 2), ("halt", 0)):
            if self.takes(kind):
                return Ask(kind, self.fixed(*[self.word] * count))
        return self.operation() if self.version == 2 else self.nothing()

    def operation(self):
        for kind, (values, names) in OPERATIONS.items():
            place = self.next.place
            if self.takes(kind):
                members = [self.argument] * values + [self.word] * names
                return Send(Word(kind, place), self.fixed(*members))
        return self.nothing()

    def nothing(self) -> Parallel:
        """The process `0`, which is any number of value 0."""
        if self.next.kind == "number" and value_of(self.next.text) == 0:
            self.at += 1
            self.wanted = []
            return Parallel([])
        self.wanted.append("0")
        return self.refuse()


def parse(text: bytes) -> Program:
    """The tree of a text. Its names aren't looked up."""
    version, tokens = tokens_of(text)
    return Parser(version, tokens).program()
