"""What the commands that read a log have in common: their words, streams and statuses."""

from __future__ import annotations

import argparse
import os
import sys

from .replay import Replay, ReplayFault, replay_of


def number(word: str) -> int:
    if not word.isdecimal():
        raise argparse.ArgumentTypeError(f"{word} is no number")
    return int(word)


def words_of(description: str, name: str) -> argparse.ArgumentParser:
    """A command that reads a log from standard input, or a part of it."""
    parser = argparse.ArgumentParser(prog=name, description=description)
    parser.add_argument(
        "--from", dest="first", type=number, default=0, metavar="N", help="begins with event N"
    )
    parser.add_argument(
        "--events", dest="count", type=number, metavar="N", help="shows at most N events"
    )
    return parser


def run(name: str, show) -> int:
    """Calls show with the replay of the log on standard input. The status is 1, and a line on
    standard error says why, where that log doesn't replay."""
    try:
        replay: Replay = replay_of(sys.stdin.buffer.read())
        show(replay)
        sys.stdout.flush()
    except ReplayFault as fault:
        sys.stdout.flush()
        print(f"{name}: {fault}", file=sys.stderr)
        return 1
    except BrokenPipeError:
        # who reads has enough; nothing more is to be flushed at the end
        os.dup2(os.open(os.devnull, os.O_WRONLY), sys.stdout.fileno())
    return 0
