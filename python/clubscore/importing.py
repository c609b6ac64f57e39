"""`import`: the records of a file of games, each in a file of its own, and a line a game."""
from __future__ import annotations

import os
import sys
import time
from typing import Optional, TextIO, Tuple

from .files import LEFT_OUT, NOT_READ, OK, read
from .pbn import Game, unread_games

_EVERY = 0.2


class Progress:
    """How far it is, in a line on a terminal that is drawn again and again; nothing elsewhere."""

    def __init__(self, stream: TextIO) -> None:
        self._stream, self._shown, self._next = stream if stream.isatty() else None, False, 0.0

    def show(self, words: str) -> None:
        if self._stream is not None and time.monotonic() >= self._next:
            sys.stdout.flush()
            print(f"\r{words}\x1b[K", end="", file=self._stream, flush=True)
            self._shown, self._next = True, time.monotonic() + _EVERY

    def clear(self) -> None:
        if self._shown:
            print("\r\x1b[K", end="", file=self._stream, flush=True)
            self._shown = False


def import_games(name: str, folder: str, table: Optional[int] = None) -> int:
    """Reads a file of games and writes their records; prints a line a game. Gives the exit status."""
    games = unread_games(read(name), table)
    os.makedirs(folder, exist_ok=True)
    progress, worst = Progress(sys.stderr), OK
    for read_game in games:
        game = read_game()
        status, line = _taken(game, folder)
        worst = max(worst, status)
        progress.clear()
        print(line)
        progress.show(f"{game.number} of {len(games)} games")
    progress.clear()
    sys.stdout.flush()
    return worst


def _taken(game: Game, folder: str) -> Tuple[int, str]:
    said = f"game {game.number}, line {game.line}: "
    if game.record is None:
        return LEFT_OUT, f"{said}left out: {game.left_out}"
    file = f"board-{game.board:03}-table-{game.table:03}.record"
    try:
        if not _put(os.path.join(folder, file), game.record):
            return LEFT_OUT, f"{said}left out: {file} is there already, with other bytes"
    except OSError as why:
        print(f"clubscore: {os.path.join(folder, file)}: {why.strerror or why}", file=sys.stderr)
        return NOT_READ, f"{said}left out: {file} cannot be written"
    differences = (f'; {tag} "{_printed(told)}", judged "{judged}"' for tag, told, judged in game.differences)
    return OK, said + file + "".join(differences)


def _printed(text: str) -> str:
    return "".join(sign if sign.isprintable() else sign.encode("unicode-escape").decode("ascii") for sign in text)


def _put(path: str, record: bytes) -> bool:
    """Writes a file that is not there; whether it has these bytes in the end."""
    try:
        file = open(path, "xb")
    except FileExistsError:
        return read(path) == record
    try:
        with file:
            file.write(record)
    except BaseException:
        os.unlink(path)
        raise
    return True
