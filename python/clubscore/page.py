"""`page`: the results as one page of HTML that asks for nothing else and has no script. Every value stands in it as JSON too, so that it can be read back."""
from __future__ import annotations

import html
import json
import os
from fractions import Fraction
from typing import List, Optional

from . import schema
from .files import OK, NotRead, read, write_whole
from .page_parts import bdi, card, contract, data, diagram, failure, item, minus, plain, revoke, shown_percent
from .scoring import FORMAT

_POLICY = "default-src 'none'; style-src 'unsafe-inline'; base-uri 'none'; form-action 'none'"
_FIELDS = {"NS": "North–South", "EW": "East–West", "all": "All pairs"}
_COLUMNS = (
    ("Table", "num"),
    ("NS", ""),
    ("EW", ""),
    ("Contract", ""),
    ("Lead", ""),
    ("Tricks", "num"),
    ("NS score", "num"),
    ("NS MP", "num"),
    ("EW MP", "num"),
    ("NS %", "num"),
    ("EW %", "num"),
)
_AWAY = "–"
_FOOTER = """</main>
<footer><p>Judged, scored and compared by a library that is proved to follow the Laws of Duplicate Bridge 2017. Matchpoints by Law 78A: 2 for each result
that is lower, 1 for each equal one.</p></footer>
</body>
</html>
"""
#: From so many results on a browser draws what is looked at alone.
_MANY = 3000


def write_page(results: str, out: str) -> int:
    """Reads results and writes their page; gives the exit status."""
    try:
        found = json.loads(read(results).decode("utf-8"), parse_constant=_no_number)
    except (ValueError, RecursionError) as why:
        raise NotRead(f"{results}: is not JSON: {why}") from why
    fault = schema.fault(found, schema.load())
    if fault is not None:
        raise NotRead(f"{results}: is not of the schema of {FORMAT}: {fault}")
    write_whole(out, page(found).encode("utf-8", "backslashreplace"), [results])
    return OK


def _no_number(word: str) -> float:
    raise ValueError(f"{word} is no number")


def page(results: dict) -> str:
    """The page of results that are of the schema."""
    parts = [_head(results), "<main>", _told(results["left_out"]), _contents(results), _ranking(results["ranking"])]
    parts += [_board(board) for board in results["boards"]]
    return "".join(parts + [_FOOTER])


def _head(results: dict) -> str:
    with open(os.path.join(os.path.dirname(os.path.abspath(__file__)), "page.css"), encoding="ascii") as file:
        style = file.read()
    boards = results["boards"]
    tables = {row["table"] for board in boards for row in board["rows"]}
    pairs = {row["pair"] for field in results["ranking"] for row in field["rows"]}
    counts = [_count(len(boards), "board"), _count(len(tables), "table")] + ([_count(len(pairs), "pair")] if pairs else [])
    many = _class("many" if _results(boards) > _MANY else "")
    return (
        '<!DOCTYPE html>\n<html lang="en">\n<head>\n<meta charset="utf-8">\n'
        f'<meta http-equiv="Content-Security-Policy" content="{_POLICY}">\n<meta name="viewport" content="width=device-width, initial-scale=1">\n'
        f"<title>Results</title>\n<style>\n{style}</style>\n</head>\n"
        f'<body id="top"{many}>\n<header><h1>Results</h1><p>{" · ".join(counts)}</p></header>\n'
    )


def _results(boards: List[dict]) -> int:
    return sum(len(board["rows"]) for board in boards)


def _count(number: int, thing: str) -> str:
    return f"{number} {thing}{'' if number == 1 else 's'}"


def _told(left_out: List[dict]) -> str:
    """What was left out, before all else."""
    if not left_out:
        return ""
    lines = "".join(f'<li data-left-out="{place}">{_left_out(entry)}</li>\n' for place, entry in enumerate(left_out))
    return f'<section class="told" aria-labelledby="told"><h2 id="told">Left out, or to be looked at</h2>\n<ul>\n{lines}</ul></section>\n'


def _left_out(entry: dict) -> str:
    where = [f"board {entry['board']}"] if entry["board"] is not None else []
    where += [f"table {entry['table']}"] if entry["table"] is not None else []
    where += [f"line {entry['line']} of the pairs"] if entry["line"] is not None else []
    files = ", ".join(bdi(file) for file in entry["files"])
    front = ", ".join(where)
    front = front[:1].upper() + front[1:]
    return ": ".join(part for part in (front, files, plain(entry["words"])) if part) + "."


def _contents(results: dict) -> str:
    links = ['<li><a href="#ranking">Ranking</a></li>'] if results["ranking"] else []
    links += [f'<li><a href="#board-{board["board"]}"><span class="vh">Board </span>{board["board"]}</a></li>' for board in results["boards"]]
    return f'<nav aria-labelledby="contents"><h2 id="contents">Contents</h2><ol>{"".join(links)}</ol></nav>\n' if links else ""


def _ranking(ranking: List[dict]) -> str:
    if not ranking:
        return ""
    tables = "".join(_field(field) for field in ranking)
    return f'<section id="ranking" aria-labelledby="ranking-title"><h2 id="ranking-title">Ranking</h2>\n<div class="ranking">\n{tables}</div></section>\n'


def _field(field: dict) -> str:
    head = "".join(f'<th scope="col"{_class(name)}>{words}</th>' for words, name in (("Rank", "num"), ("Pair", ""), ("Boards", "num"), ("Percent", "num")))
    rows = "".join(_rank(field["field"], row) for row in field["rows"])
    return f'<table><caption>{_FIELDS[field["field"]]}</caption><thead><tr>{head}</tr></thead>\n<tbody>\n{rows}</tbody></table>\n'


def _rank(field: str, row: dict) -> str:
    shown = None if row["exact"] is None else shown_percent(Fraction(row["exact"]))
    pair = html.escape(json.dumps(row["pair"]))
    return (
        f'<tr data-ranking="{field}" data-pair="{pair}">'
        + _cell("rank", row["rank"], _AWAY if row["rank"] is None else row["rank"], "num rank")
        + f'<th scope="row" class="pair"{data("pair", row["pair"])}>{bdi(row["pair"])}</th>'
        + _cell("boards", row["boards"], row["boards"], "num")
        + _percent("percent", row["percent"], shown, "percent")
        + "</tr>\n"
    )


def _class(name: str) -> str:
    return f' class="{name}"' if name else ""


def _cell(field: str, value: object, shown: object, name: str = "") -> str:
    return f"<td{_class(name)}{data(field, value)}>{shown}</td>"


def _percent(field: str, value: Optional[float], shown: Optional[str], name: str) -> str:
    """A percentage with a bar as long as it."""
    bar = "" if shown is None else f' style="--p:{shown}%"'
    return f"<td{_class(name)}{bar}{data(field, value)}>{_AWAY if shown is None else shown}</td>"


def _board(board: dict) -> str:
    number = board["board"]
    head = "".join(f'<th scope="col"{_class(name)}>{words}</th>' for words, name in _COLUMNS)
    rows = "".join(_row(number, row) for row in board["rows"])
    why = "" if board["refused"] is None else f'<p class="why">No points on this board: {plain(board["refused"]["words"])}.</p>\n'
    return (
        f'<section class="board dealt" id="board-{number}" aria-labelledby="title-{number}"><h2 id="title-{number}">Board {number}</h2>\n{why}{diagram(board)}'
        f'<table class="traveller"><caption class="vh">Results of board {number}</caption><thead><tr>{head}</tr></thead>\n<tbody>\n{rows}</tbody></table>\n'
        '<p class="up"><a href="#top">Contents</a></p></section>\n'
    )


def _row(board: int, row: dict) -> str:
    cells = (
        f'<th scope="row" class="num t"{data("table", row["table"])}>{row["table"]}</th>'
        + _pair("ns", row["ns"])
        + _pair("ew", row["ew"])
        + _contract(row)
        + _cell("lead", row["lead"], "" if row["lead"] is None else card(row["lead"]), "l")
        + _cell("tricks_after", row["tricks_after"], "" if row["tricks_after"] is None else row["tricks_after"], "num k")
        + _score(row)
        + _points(row)
    )
    return f'<tr data-board="{board}" data-table="{row["table"]}">{cells}</tr>\n' + _note(row)


def _pair(field: str, name: Optional[str]) -> str:
    return _cell(field, name, "" if name is None else bdi(name), f"pair {field}")


def _contract(row: dict) -> str:
    if row["contract"] is None:
        return '<td class="c kind">awarded</td>'
    by = "" if row["declarer"] is None else f' <span{data("declarer", row["declarer"])}><span class="vh">by </span>{row["declarer"]}</span>'
    return f'<td class="c"><span{data("contract", row["contract"])}>{contract(row["contract"])}</span>{by}</td>'


def _score(row: dict) -> str:
    """The score, under which its items are folded away."""
    items = data("items", row["items"])
    if row["score"] is None:
        return f'<td class="num s"><span{items}></span></td>'
    score = data("score", row["score"])
    if not row["items"]:
        return f'<td class="num s"><span{items}></span><span{score}>{minus(row["score"])}</span></td>'
    lines = "".join(item(one) for one in row["items"])
    return f'<td class="num s"><details{items}><summary{score}>{minus(row["score"])}</summary><dl>{lines}</dl></details></td>'


def _points(row: dict) -> str:
    ns, ew = row["ns_matchpoints"], row["ew_matchpoints"]
    cells = "".join(
        _cell(field, row[field], _AWAY if row[field] is None else row[field], name)
        for field, name in (("ns_matchpoints", "num nsm"), ("ew_matchpoints", "num ewm"))
    )
    for field, points, other, name in (("ns_percent", ns, ew, "nsp"), ("ew_percent", ew, ns, "ewp")):
        cells += (
            _percent(field, row[field], _exact(row[field], points, other), f"percent {name}")
            if row["kind"] != "alone"
            else f'<td class="num {name} kind">alone</td>'
        )
    return cells


def _exact(percent: Optional[float], points: Optional[int], other: Optional[int]) -> Optional[str]:
    """A percentage of a result from its matchpoints, or of an award."""
    if percent is None:
        return None
    return shown_percent(Fraction(100 * points, points + other) if points is not None and other is not None and points + other else Fraction(percent))


def _note(row: dict) -> str:
    """Revokes and penalty cards in words, on a line of their own."""
    said = [revoke(one) for one in row["revokes"]] + [failure(one) for one in row["failures"]]
    if not said:
        return ""
    if row["revokes"]:
        said.append(f"declarer’s side won {_count(row['tricks'], 'trick')}, {row['tricks_after']} after Law 64")
    return f'<tr class="note"><td colspan="{len(_COLUMNS)}">Table {row["table"]}: {"; ".join(said)}.</td></tr>\n'
