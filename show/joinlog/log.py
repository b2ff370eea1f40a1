"""Reads a log, field by field, as docs/LANGUAGE.md has it."""

from __future__ import annotations

from typing import List, NamedTuple

from .solution import Event, Pair

SIZE_LIMIT = 1_048_576
# the first line, and the least and the largest budget behind it
HEADS = {b"joinlog 1": (0, 1_000_000), b"joinlog 2": (1_000_001, 4_000_000)}
KINDS = ("react", "move", "halt", "detect")


class LogFault(Exception):
    """Bytes that are no log: the first byte of the first wrong field, and what is wanted there."""

    def __init__(self, place: int, wanted: str):
        super().__init__(f"no log: at byte {place} {wanted} is wanted")
        self.place = place


class Log(NamedTuple):
    source: bytes
    budget: int
    events: List[Event]
    trace: bytes


class Fields:
    """Takes one field after another."""

    def __init__(self, data: bytes):
        self.data, self.at = data, 0

    def refuse(self, wanted: str):
        raise LogFault(self.at, wanted)

    def takes(self, literal: bytes) -> bool:
        if not self.data.startswith(literal, self.at):
            return False
        self.at += len(literal)
        return True

    def literal(self, *choices: bytes) -> bytes:
        for choice in choices:
            if self.takes(choice):
                return choice
        return self.refuse(" or ".join(repr(it.decode("ascii")) for it in choices))

    def number(self, largest: int, smallest: int = 0) -> int:
        """A run of decimal digits without a leading zero."""
        end = self.at
        while self.data[end : end + 1].isdigit():
            end += 1
        digits = self.data[self.at : end]
        is_plain = digits and (digits == b"0" or digits[:1] != b"0") and len(digits) <= 20
        if not is_plain or not smallest <= int(digits) <= largest:
            self.refuse(f"a number from {smallest} to {largest}")
        self.at = end
        return int(digits)

    def bytes(self, size: int) -> bytes:
        found = self.data[self.at : self.at + size]
        if len(found) < size:
            self.refuse(f"a text of {size} bytes")
        self.at += size
        return found

    def pair(self) -> Pair:
        site = self.number(2**32 - 1)
        self.literal(b".")
        return Pair(site, self.number(2**64 - 1))

    def event(self) -> Event:
        kind = self.literal(*(f"{it} ".encode("ascii") for it in KINDS)).decode("ascii").strip()
        pairs = [self.pair()]
        if kind == "react":
            self.literal(b" ")
            pairs.append(self.pair())
            while self.literal(b" ", b"\n") == b" ":
                pairs.append(self.pair())
        else:
            self.literal(b"\n")
        return Event(kind, pairs)


def read_log(data: bytes) -> Log:
    """The parts of a log. Raises LogFault where the bytes are none."""
    fields = Fields(data)
    head = fields.literal(*(it + b"\nsource " for it in HEADS))
    smallest, largest = HEADS[head[:9]]
    size = fields.number(SIZE_LIMIT)
    fields.literal(b"\n")
    source = fields.bytes(size)
    fields.literal(b"\nbudget ")
    budget = fields.number(largest, smallest)
    fields.literal(b"\nevents ")
    count = fields.number(budget)
    fields.literal(b"\n")
    events = [fields.event() for _ in range(count)]
    fields.literal(b"trace ")
    size = fields.number(2**64 - 1)
    fields.literal(b"\n")
    trace = fields.bytes(size)
    if fields.at < len(data):
        fields.refuse("the end")
    return Log(source, budget, events, trace)
