"""Draws a run as a picture: a lane a site, time downwards, and the words at the right.

A line is a location, which passes from lane to lane where it moves; a dot is an event; an arrow
leads from the event that made a message or a request to the one that took it."""

from __future__ import annotations

from dataclasses import dataclass, field
from typing import Dict, Iterator, List, NamedTuple, Optional
from xml.sax.saxutils import escape

from .causes import left_lines
from .replay import Replay, Step
from .solution import Pair

ROW, HEAD, MARGIN = 22, 44, 12
TRACK, EDGE = 22, 20  # between two lines of a lane, and from its edge to the first one
LANE = 110  # the least width of a lane, where there is room
LANES, WIDTH = 420, 800  # what the lanes take at most, if they can, and the whole picture
LETTER = 6.4  # the width of a letter
MANY = 24  # of more locations than these only those that act are drawn
COLOURS = {"react": "#2f6fab", "move": "#2a8a4f", "halt": "#c92a2a", "detect": "#d9820f"}
WORDS = {"react": "reaction", "move": "move", "halt": "halt", "detect": "death seen"}
LINES = ("#7b3fa0", "#0b7a75", "#a85b00", "#3b5bdb", "#a61e4d", "#5c940d", "#0c8599", "#8a6d00")
SITE, DEAD, ARROW, GREY = "#ced4da", "#c92a2a", "#868e96", "#495057"
DOT = 5


class Point(NamedTuple):
    x: float
    y: float


@dataclass
class Piece:
    """A part of a line, within one lane: its track, and from where to where it goes."""

    site: int
    track: int
    begins: float
    ends: Optional[float] = None


@dataclass
class Line:
    """A location, and the pieces of its line. The maker is the event that made it."""

    pieces: List[Piece]
    maker: Optional[Pair] = None
    dies: bool = False


@dataclass
class Scene:
    """A run as it is laid out: what is at which height, and in which lane and track."""

    steps: List[Step] = field(default_factory=list)
    heights: List[float] = field(default_factory=list)
    lines: Dict[Pair, Line] = field(default_factory=dict)
    ends: Dict[int, float] = field(default_factory=dict)  # where sites end
    tracks: Dict[int, List[Optional[Pair]]] = field(default_factory=dict)
    widest: Dict[int, int] = field(default_factory=dict)  # how many tracks a lane needs
    height: float = HEAD


class Stage:
    """Lays a run out, event after event."""

    def __init__(self, replay: Replay, first: int, count: Optional[int]):
        self.replay, self.scene = replay, Scene()
        self.dead = set()
        for step in replay.steps(first, count):
            self.scene.steps.append(step)
            if step.event is None:
                self.dead = {it.site for it in step.born if self.is_dead_site(it.site)}
        self.drawn = self.drawn_locations()
        for step in self.scene.steps:
            self.add(step)
        for line in self.scene.lines.values():
            if line.pieces[-1].ends is None:
                line.pieces[-1].ends = self.scene.height

    def is_dead_site(self, site: int) -> bool:
        return self.replay.solution.is_dead((site, 0))

    def drawn_locations(self) -> set:
        """All locations, or where there are many, those that act."""
        born = {it.location for step in self.scene.steps for it in step.born}
        acting = {step.location for step in self.scene.steps if step.event}
        is_many = sum(it.number > 0 for it in born) > MANY
        return acting | {it for it in born if it.number == 0} if is_many else born

    def add(self, step: Step):
        """Puts a step below those before it."""
        at = self.scene.height
        self.scene.heights.append(at)
        self.scene.height += ROW * (len(step.printed) + (step.event is not None))
        for it in step.born:
            if it.location in self.drawn:
                self.begin(it, at, step)
        if step.event is None:
            return
        if step.event.kind == "halt":
            self.end(step, at)
        elif step.target is not None and step.target.site != step.site:
            self.move(step, at)

    def begin(self, born, at: float, step: Step):
        begins = at - 12 if step.event is None else at + ROW - 4
        line = Line([self.piece(born.location, born.site, begins)], step.location)
        self.scene.lines[born.location] = line
        if born.location.number == 0 and born.site in self.dead:
            self.scene.ends[born.site] = at

    def piece(self, location: Pair, site: int, begins: float) -> Piece:
        """A piece on the first free track of the lane; the site itself has track 0."""
        tracks = self.scene.tracks.setdefault(site, [Pair(site, 0)])
        track = 0 if location == Pair(site, 0) else next(
            (at for at, it in enumerate(tracks) if it is None), len(tracks)
        )
        tracks[track : track + 1] = [location]
        self.scene.widest[site] = max(self.scene.widest.get(site, 1), len(tracks))
        return Piece(site, track, begins)

    def leave(self, location: Pair, at: float) -> Line:
        line = self.scene.lines[location]
        last = line.pieces[-1]
        last.ends = at
        self.scene.tracks[last.site][last.track] = None
        return line

    def move(self, step: Step, at: float):
        line = self.leave(step.location, at)
        line.pieces.append(self.piece(step.location, step.target.site, at + ROW - 4))
        if step.target.site in self.scene.ends:
            # it falls with the dead site that it moved to
            self.leave(step.location, at + ROW).dies = True

    def end(self, step: Step, at: float):
        """Ends the lines of a location and, of a site, of all that it hosts."""
        is_site = step.location == Pair(step.site, 0)
        if is_site:
            self.scene.ends[step.site] = at
        hosted = self.scene.tracks[step.site] if is_site else [step.location]
        for location in [it for it in hosted if it is not None]:
            # a halt has its own dot; what dies with it gets a cross
            self.leave(location, at).dies = location != step.location


class Picture:
    """Writes a scene as SVG."""

    def __init__(self, replay: Replay, scene: Scene, ending: List[str]):
        self.replay, self.scene, self.ending = replay, scene, ending
        self.remains = [*left_lines(replay)]
        self.sites = len(replay.solution.counts)
        self.names = [replay.words.location((it, 0)) for it in range(self.sites)]
        least = min(LANE, max((LANES - MARGIN) / self.sites, 10))
        self.edge = min(EDGE, least / 2)
        self.lefts, x = [], float(MARGIN)
        for site in range(self.sites):
            self.lefts.append(x)
            x += max(least, TRACK * (scene.widest.get(site, 1) - 1) + 2 * self.edge)
        self.right = x
        self.slanted = any(
            len(name) * LETTER > width for name, width in zip(self.names, self.lane_widths())
        )
        self.top = max(map(len, self.names)) * 4.6 if self.slanted else 0
        self.width = max(WIDTH, x + 300)
        self.numbers = {it: at for at, it in enumerate(self.drawn_lines())}
        self.makers: Dict[Pair, Point] = {}

    def lane_widths(self) -> List[float]:
        return [right - left for left, right in zip(self.lefts, [*self.lefts[1:], self.right])]

    def drawn_lines(self) -> List[Pair]:
        return [it for it in self.scene.lines if it.number > 0]

    # ---- where things are

    def x(self, site: int, track: int) -> float:
        return self.lefts[site] + self.edge + TRACK * track

    def y(self, height: float) -> float:
        return height + self.top

    def at(self, location: Pair, height: float) -> Point:
        """Where a location's line is at a height: on the last piece that has begun there."""
        pieces = self.scene.lines[location].pieces
        piece = next((it for it in reversed(pieces) if it.begins <= height), pieces[0])
        return Point(self.x(piece.site, piece.track), self.y(height))

    def colour(self, location: Pair) -> str:
        if location not in self.numbers:
            return SITE
        return LINES[self.numbers[location] % len(LINES)]

    # ---- the parts of the picture

    def lines(self) -> Iterator[str]:
        height = self.y(self.scene.height) + 56 + ROW * len(self.remains)
        yield (
            f'<svg xmlns="http://www.w3.org/2000/svg" viewBox="0 0 {self.width:.0f} {height:.0f}"'
            f' width="{self.width:.0f}" height="{height:.0f}" font-size="12"'
            ' font-family="Helvetica, Arial, DejaVu Sans, sans-serif">'
        )
        yield (
            '<defs><marker id="tip" markerWidth="7" markerHeight="7" refX="6" refY="3"'
            f' orient="auto"><path d="M0,0 L6,3 L0,6 z" fill="{ARROW}"/></marker></defs>'
        )
        yield '<rect width="100%" height="100%" fill="#ffffff"/>'
        yield from self.lanes()
        yield from self.locations()
        yield from self.arrows()
        for step, height in zip(self.scene.steps, self.scene.heights):
            yield from self.step(step, height)
        yield from self.legend(height=self.y(self.scene.height))
        yield "</svg>"

    def lanes(self) -> Iterator[str]:
        top, bottom = self.y(HEAD) - 16, self.y(self.scene.height)
        for site, (left, width) in enumerate(zip(self.lefts, self.lane_widths())):
            end = self.y(self.scene.ends[site]) if site in self.scene.ends else bottom
            yield (
                f'<rect x="{left:.1f}" y="{top:.1f}" width="{width - 4:.1f}"'
                f' height="{max(end - top, 2):.1f}" fill="#f1f3f5"/>'
            )
            if site in self.scene.ends:
                yield (
                    f'<line x1="{left:.1f}" y1="{end:.1f}" x2="{left + width - 4:.1f}"'
                    f' y2="{end:.1f}" stroke="{DEAD}" stroke-width="3"/>'
                )
            yield self.lane_name(site, left, top - 8)

    def lane_name(self, site: int, left: float, y: float) -> str:
        turn = f' transform="rotate(-40 {left:.1f} {y:.1f})"' if self.slanted else ""
        name = escape(self.names[site])
        return f'<text x="{left:.1f}" y="{y:.1f}"{turn} font-weight="bold">{name}</text>'

    def locations(self) -> Iterator[str]:
        for location, line in self.scene.lines.items():
            colour, width = self.colour(location), 2 if location.number else 1.5
            path = self.path_of(line)
            yield f'<path d="{path}" fill="none" stroke="{colour}" stroke-width="{width}"/>'
            if line.dies and location.number > 0:
                last = line.pieces[-1]
                yield cross(self.x(last.site, last.track), self.y(last.ends))

    def path_of(self, line: Line) -> str:
        words, last = [], None
        if line.maker is not None and line.maker in self.scene.lines:
            last = self.at(line.maker, line.pieces[0].begins - ROW + 4)
            words.append(f"M{last.x:.1f},{last.y:.1f}")
        for piece in line.pieces:
            x = self.x(piece.site, piece.track)
            begins, ends = self.y(piece.begins), self.y(piece.ends)
            words.append(bend(last, Point(x, begins)) if last else f"M{x:.1f},{begins:.1f}")
            words.append(f"V{ends:.1f}")
            last = Point(x, ends)
        return " ".join(words)

    def arrows(self) -> Iterator[str]:
        """From the event that made a message or a request to the one that took it."""
        for step, height in zip(self.scene.steps, self.scene.heights):
            if step.event is None:
                continue
            here = self.at(step.location, height)
            took = step.event.pairs[1:] if step.event.kind == "react" else step.event.pairs
            for maker in dict.fromkeys(self.makers[it] for it in took if it in self.makers):
                yield (
                    f'<path d="{arrow(maker, here)}" fill="none" stroke="{ARROW}"'
                    ' stroke-width="1.2" marker-end="url(#tip)"/>'
                )
            self.makers.update((it, here) for it in step.atoms_made)

    def step(self, step: Step, height: float) -> Iterator[str]:
        y = self.y(height)
        if step.event is not None:
            here = self.at(step.location, height)
            told = f"{step.number} {step.event.kind} {step.where} {step.took}"
            made = ", ".join([*(f"prints {it.words}" for it in step.printed), *step.made])
            yield f"<g><title>{escape(told)}{escape(' => ' + made) if made else ''}</title>"
            colour = COLOURS[step.event.kind]
            yield f'<circle cx="{here.x:.1f}" cy="{here.y:.1f}" r="{DOT}" fill="{colour}"/>'
            yield self.words(step, y + 4)
            yield "</g>"
            y += ROW
        for message in step.printed:
            yield self.printed(message.words, y + 1)
            y += ROW

    def words(self, step: Step, y: float) -> str:
        who = "" if self.replay.solution.is_root(step.location) else (
            self.replay.words.location(step.location)
        )
        what = step.took
        if step.target is not None:
            what = f"to {self.replay.words.location(step.target)}"
        room = int((self.width - self.right - 44) / LETTER) - len(who)
        what = what if len(what) <= room else what[: max(room - 2, 0)] + ".."
        colour = self.colour(step.location)
        name = f'<tspan fill="{colour}" font-weight="bold">{escape(who)}</tspan> ' if who else ""
        return (
            f'<text x="{self.right + 24:.1f}" y="{y:.1f}" text-anchor="end" fill="{ARROW}">'
            f'{step.number}</text><text x="{self.right + 32:.1f}" y="{y:.1f}">'
            f"{name}{escape(what)}</text>"
        )

    def printed(self, words: str, y: float) -> str:
        return (
            f'<text x="{self.right + 44:.1f}" y="{y:.1f}" font-style="italic" fill="{GREY}">'
            f"prints {escape(words)}</text>"
        )

    def legend(self, height: float) -> Iterator[str]:
        ending = " ".join(self.ending)
        yield f'<text x="{self.right + 32:.1f}" y="{height + 8:.1f}">{ending}</text>'
        x, y = float(MARGIN), height + 38
        for kind, colour in COLOURS.items():
            yield f'<circle cx="{x + 5:.1f}" cy="{y - 4:.1f}" r="{DOT}" fill="{colour}"/>'
            yield f'<text x="{x + 14:.1f}" y="{y:.1f}" fill="{GREY}">{WORDS[kind]}</text>'
            x += 34 + len(WORDS[kind]) * LETTER
        yield (
            f'<text x="{x:.1f}" y="{y:.1f}" fill="{GREY}">a line is a location, an arrow a'
            " message or request; red: the end of a site</text>"
        )
        room = int((self.width - 2 * MARGIN) / LETTER)
        for at, text in enumerate(self.remains, start=1):
            text = text if len(text) <= room else text[: room - 2] + ".."
            yield f'<text x="{MARGIN}" y="{y + ROW * at:.1f}" fill="{GREY}">{escape(text)}</text>'


def bend(start: Point, end: Point) -> str:
    """A line that leaves downwards and arrives downwards."""
    middle = (start.y + end.y) / 2
    return f"C{start.x:.1f},{middle:.1f} {end.x:.1f},{middle:.1f} {end.x:.1f},{end.y:.1f}"


def arrow(start: Point, end: Point) -> str:
    """An arrow between two dots, to the side where they stand above each other."""
    if abs(start.x - end.x) >= 1:
        return f"M{start.x:.1f},{start.y:.1f} {bend(start, Point(end.x, end.y - DOT))}"
    side = start.x - min(13 + (end.y - start.y) / 20, 22)
    return (
        f"M{start.x:.1f},{start.y:.1f} C{side:.1f},{start.y + 6:.1f}"
        f" {side:.1f},{end.y:.1f} {end.x - DOT:.1f},{end.y:.1f}"
    )


def cross(x: float, y: float) -> str:
    return (
        f'<path d="M{x - 5:.1f},{y - 5:.1f} l10,10 m0,-10 l-10,10" stroke="{DEAD}"'
        ' stroke-width="2"/>'
    )


def picture(replay: Replay, first: int, count: Optional[int]) -> Iterator[str]:
    """The lines of a picture."""
    scene = Stage(replay, first, count).scene
    yield from Picture(replay, scene, [*replay.ending_lines(first, count)]).lines()
