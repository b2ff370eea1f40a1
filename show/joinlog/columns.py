"""Draws a run for the terminal: a column a site, time downwards, in lines of 100 columns."""

from __future__ import annotations

from typing import Dict, Iterator, NamedTuple, Optional

from .causes import left_lines
from .replay import Replay, Step

WIDTH = 100
LEAST_COLUMN, LARGEST_COLUMN = 15, 47
MARKS = {"react": "*", "halt": "X", "detect": "!"}


class Mark(NamedTuple):
    """What stands in a site's column: a sign and words."""

    sign: str
    words: str

    def __str__(self):
        return f"{self.sign} {self.words}"


def fit(text: str, width: int) -> str:
    """The text, cut where it is longer than the width."""
    return text if len(text) <= width else text[: max(width - 2, 0)] + ".."


class Wide:
    """Columns with room for words."""

    def __init__(self, names, room: int):
        self.names, self.width = names, min(room // len(names), LARGEST_COLUMN)

    def head(self) -> Iterator[str]:
        yield self.cells(self.names)

    def row(self, marks: Dict[int, Mark], ended) -> str:
        empty = ["" if has_ended else "|" for has_ended in ended]
        return self.cells(str(marks.get(site, it)) for site, it in enumerate(empty))

    def cells(self, texts) -> str:
        return "".join(fit(it, self.width - 1).ljust(self.width) for it in texts)


class Narrow:
    """Columns of one sign each, and the words beside them."""

    def __init__(self, names, room: int):
        self.names, self.room = names, room

    def head(self) -> Iterator[str]:
        yield fit("the sites are " + " ".join(self.names), self.room)

    def row(self, marks: Dict[int, Mark], ended) -> str:
        signs = [" " if has_ended else "|" for has_ended in ended]
        for site in range(min(marks, default=0) + 1, max(marks, default=0)):
            signs[site] = "-"
        for site, mark in marks.items():
            signs[site] = mark.sign
        words = [f"{self.names[site]}: {mark.words}" for site, mark in marks.items()]
        return fit("".join(signs) + "  " + "".join(words[:1]), self.room)


class Plain(Narrow):
    """No columns, for more sites than a line has room for."""

    def head(self) -> Iterator[str]:
        return iter(())

    def row(self, marks: Dict[int, Mark], ended) -> str:
        words = [f"{mark.sign} {self.names[site]}: {mark.words}" for site, mark in marks.items()]
        return fit("".join(words[:1]), self.room)


def layout(names, room: int):
    if room // len(names) >= LEAST_COLUMN:
        return Wide(names, room)
    return Narrow(names, room) if len(names) <= room // 3 * 2 else Plain(names, room)


def marks_of(replay: Replay, step: Step) -> Dict[int, Mark]:
    """The marks of an event, its own first."""
    who = replay.words.location(step.location)
    if step.target is None:
        is_site = replay.solution.is_root(step.location)
        words = step.took if is_site else f"{who}: {step.took}"
        return {step.site: Mark(MARKS[step.event.kind], words)}
    # what moves to a dead site falls with it
    falls = " falls" if replay.solution.is_dead(step.target) else ""
    marks = {step.site: Mark(">", f"{who} to {replay.words.location(step.target)}")}
    if step.target.site != step.site:
        marks[step.target.site] = Mark("<", who + falls)
    return marks


def chart(replay: Replay, first: int, count: Optional[int]) -> Iterator[str]:
    """The lines of a chart."""
    names = [replay.words.location((site, 0)) for site in range(len(replay.solution.counts))]
    lead = max(4, len(str(len(replay.log.events)))) + 1
    drawn = layout(names, WIDTH - lead)

    def line(head, text) -> str:
        return (str(head).rjust(lead - 1) + " " + text).rstrip()

    yield from (line("", it) for it in drawn.head())
    for step in replay.steps(first, count):
        ended = [replay.solution.is_dead((site, 0)) for site in range(len(names))]
        if step.event is not None:
            yield line(step.number, drawn.row(marks_of(replay, step), ended))
        for message in step.printed:
            yield line("", drawn.row({message.site: Mark("=", message.words)}, ended))
    endings = [*replay.ending_lines(first, count), *left_lines(replay)]
    yield from (line("", fit(it, WIDTH - lead)) for it in endings)
