"""The command line: `python3 -m clubscore import`, `results` and `page`."""
from __future__ import annotations

import argparse
import os
import sys
from typing import List, Optional

from .files import NOT_READ, NotRead


def parser() -> argparse.ArgumentParser:
    top = argparse.ArgumentParser(prog="clubscore", description="From a club's files to its page of results.")
    commands = top.add_subparsers(dest="command", required=True, metavar="import | results | page")
    games = commands.add_parser(
        "import",
        help="records from a file in Portable Bridge Notation, a line a game",
        epilog="Exits 0 where every game was taken, 1 where one was left out, 2 where something could not be read or written.",
    )
    games.add_argument("file", metavar="CLUB.pbn")
    games.add_argument("--table", type=int, metavar="N", help="the table of games without a number in a Table tag; else 1, 2, .. on each board")
    games.add_argument("-o", dest="out", metavar="DIR", required=True, help="where the records go; nothing there is written over")
    results = commands.add_parser(
        "results",
        help="results and rankings from records",
        epilog="Exits 0 where nothing was left out, 1 where something was, 2 where something could not be read or written.",
    )
    results.add_argument("records", nargs="+", metavar="RECORD", help="a table record; hexadecimal where its name ends in .hex; - for standard input")
    results.add_argument("--pairs", metavar="PAIRS.csv", help="first line board,table,ns,ew,award_ns,award_ew; the last two may be missing")
    results.add_argument("-o", dest="out", metavar="results.json", required=True)
    page = commands.add_parser(
        "page", help="a page of results, one file that asks for nothing else", epilog="Exits 0, or 2 where a file could not be read or written."
    )
    page.add_argument("results", metavar="results.json")
    page.add_argument("-o", dest="out", metavar="results.html", required=True)
    return top


def main(arguments: Optional[List[str]] = None) -> int:
    given = parser().parse_args(arguments)
    for stream in (sys.stdout, sys.stderr):
        if hasattr(stream, "reconfigure"):
            stream.reconfigure(errors="backslashreplace")
    try:
        return _run(given)
    except BrokenPipeError:
        os.dup2(os.open(os.devnull, os.O_WRONLY), sys.stdout.fileno())
    except OSError as why:
        print(f"clubscore: {why.filename or 'input or output'}: {why.strerror or why}", file=sys.stderr)
    except NotRead as why:
        print(f"clubscore: {why}", file=sys.stderr)
    return NOT_READ


def _run(given: argparse.Namespace) -> int:
    if given.command == "import":
        from .importing import import_games

        return import_games(given.file, given.out, given.table)
    if given.command == "results":
        from .scoring import write_results

        return write_results(given.records, given.pairs, given.out)
    from .page import write_page

    return write_page(given.results, given.out)


if __name__ == "__main__":
    sys.exit(main())
