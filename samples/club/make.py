"""Makes the records and the pairs of a club's evening, always the same ones: python3 samples/club/make.py DIR, with `python` in PYTHONPATH.

Two sections: tables 1 to 7 are A, 8 to 13 B. 24 boards in six rounds of four; NS stay, EW move up a table in their section after each round. What happened:

  board 5,  table 4   a defender revokes
  board 11, table 2   a defender exposes a card by accident, and does not play it when it was due
  board 9,  table 6   not played, nobody at fault: 60 per cent each
  board 17            fouled: section B played it with two cards exchanged
  board 21, table 11  the record came cut, and is refused
  many boards         end by a claim
"""
import csv
import os
import sys

from cards import Chance, deal, length, play, points

from clubscore import Refused, judge, write_record

TABLES, SECTION_A, ROUNDS, BOARDS = 13, 7, 6, 4
NAMES = (
    "Adler Berg Christen Dahl Evers Falk Gerber Hahn Iversen Jansen Keller Lund Maas "
    "Nowak Olsen Peters Quist Rossi Sand Thoma Ulrich Vogt Weber Xander Yilmaz Zeller "
    "Amsel Brandt Conrad Dorn Ebert Frey Graf Holm Imhof Jung Kaya Lorenz Moser "
    "Noll Otto Paul Quast Reiter Stein Tietz Uhl Voss Winter Xu York Zorn"
).split()
NOT_PLAYED, FOULED, REVOKE, EXPOSED, CUT = (9, 6), 17, (5, 4), (11, 2), (21, 11)


def pair(number):
    return f"{NAMES[2 * number]} – {NAMES[2 * number + 1]}"


def seats(board, table):
    """The pairs of a table on a board: NS 0 to 12 stay, EW 13 to 25 move."""
    turn = (board - 1) // BOARDS
    first, count = (1, SECTION_A) if table <= SECTION_A else (SECTION_A + 1, TABLES - SECTION_A)
    return pair(table - 1), pair(TABLES + first - 1 + (table - first - turn) % count)


def contract(holders, chance):
    """Who declares, in what strain and how high, as a table may come to it: the side with more points, its longest fit, and about as high as it will make."""
    side = 0 if points(holders, 0) + points(holders, 2) >= 20 + chance.below(2) else 1
    seat = side if points(holders, side) >= points(holders, side + 2) else side + 2
    fits = sorted(range(4), key=lambda suit: (length(holders, side, suit) + length(holders, side + 2, suit), suit), reverse=True)
    fit = length(holders, side, fits[0]) + length(holders, side + 2, fits[0])
    strain = fits[0] if fit >= 8 and not chance.percent(15) else 4
    if strain < 4 and length(holders, (seat + 2) % 4, strain) > length(holders, seat, strain):
        seat = (seat + 2) % 4
    tricks = play(holders, seat, strain, Chance(77))[1][-1]
    level = max(1, min(7, tricks - 6 + chance.pick((-1, 0, 0, 0, 0, 1))))
    return seat, strain, usual(level, strain, chance)


def usual(level, strain, chance):
    """Players stop in a partscore, a game or a slam, seldom between."""
    if level == 7 and chance.percent(80):
        return 6
    if strain == 4 and level in (4, 5):
        return 3
    if strain in (2, 3) and level in (3, 5):
        return 4 if level == 5 or chance.percent(50) else 3
    return chance.pick((3, 5)) if strain < 2 and level == 4 else level


def auction(dealer, declarer, strain, level, doubled):
    """Calls that lead there: declarer bids the strain, partner raises, all others pass, or double in the end."""
    calls = [0] * ((declarer - dealer) % 4)
    steps = {1: (1,), 2: (1, 2), 3: (1, 3), 4: (1, 3, 4) if strain < 4 else (1, 4), 5: (1, 3, 5)}.get(level, (1, 3, level))
    for step in steps:
        calls += [3 + 5 * (step - 1) + strain, 0]
    return calls[:-1] + ([1, 0, 0, 0] if doubled else [0, 0, 0])


def record(board, table, holders, chance):
    if board == 23 and table in (3, 10):
        return write_record(board, table, holders, [0] * 4, [])
    declarer, strain, level = contract(holders, chance)
    plays, won = play(holders, declarer, strain, chance)
    short = won[-1] - 6 - level
    calls = auction((board - 1) % 4, declarer, strain, level, short < -1 and chance.percent(40))
    if (board, table) == REVOKE:
        return revoked(board, table, holders, calls, plays, declarer)
    if (board, table) == EXPOSED:
        return exposed(board, table, holders, calls, plays)
    end = 6 + chance.below(6) if chance.percent(65) else 13
    claim = None if end == 13 else won[13] - won[end]
    return write_record(board, table, holders, calls, plays[: 4 * end], claim)


def revoked(board, table, holders, calls, plays, declarer):
    """The first card that a defender can throw in place of one of the suit led, and then a claim of half of what is left."""
    for place in range(8, 40):
        for card in (card for card in range(52) if holders[card] == holders[plays[place]] and card not in plays[:place]):
            led = plays[place - place % 4]
            if place % 4 and card // 13 != led // 13 == plays[place] // 13 and holders[card] % 2 != declarer % 2:
                changed = write_record(board, table, holders, calls, plays[:place] + [card], 6 - place // 8)
                if judge(changed).tricks_after != judge(changed).tricks:
                    return changed
    raise SystemExit("no card to revoke with")


def exposed(board, table, holders, calls, plays):
    """The first exposure before a card after which the play fails to play the penalty card, with all else as it was."""
    for place in range(4, 40):
        for card in range(52):
            try:
                changed = write_record(board, table, holders, calls, plays[:place] + [52, card, 0] + plays[place:])
            except Refused:
                continue
            if len(judge(changed).failures) == 1 and not judge(changed).revokes:
                return changed
    raise SystemExit("no card to expose")


def main(folder):
    os.makedirs(folder, exist_ok=True)
    rows = [("board", "table", "ns", "ew", "award_ns", "award_ew")]
    for board in range(1, ROUNDS * BOARDS + 1):
        holders = deal(Chance(1000 + board))
        for table in range(1, TABLES + 1):
            played = (board, table) != NOT_PLAYED
            rows.append((board, table) + seats(board, table) + (("", "") if played else (60, 60)))
            dealt = list(holders)
            if board == FOULED and table > SECTION_A:
                first, second = dealt.index(0), dealt.index(1)
                dealt[first], dealt[second] = dealt[second], dealt[first]
            content = record(board, table, dealt, Chance(100 * board + table)) if played else None
            if content is not None:
                with open(os.path.join(folder, f"board-{board:03}-table-{table:03}.record"), "wb") as file:
                    file.write(content[:40] if (board, table) == CUT else content)
    with open(os.path.join(folder, "pairs.csv"), "w", encoding="utf-8", newline="") as file:
        csv.writer(file, lineterminator="\n").writerows(rows)


if __name__ == "__main__":
    if len(sys.argv) != 2:
        raise SystemExit(__doc__)
    main(sys.argv[1])
