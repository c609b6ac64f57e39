"""Games printed in Portable Bridge Notation in every manner that programs have, by chance. Nothing of clubscore is used: what a text says is known from the
parts that the games in Rust were made of."""
from __future__ import annotations

import random

SEATS, STRAINS, RANKS, SUITS = "NESW", ("C", "D", "H", "S", "NT"), "23456789TJQKA", "CDHS"
VULNERABLE = ("None", "NS", "EW", "All", "NS", "EW", "All", "None", "EW", "All", "None", "NS", "All", "None", "NS", "EW")
MARK = 38
COMMENTS = ("{plain}", "{over\nlines}", '{an empty line\n\n[Board "99"] 1C ; inside}', "{% no line of its own\n% nor this}", "{\xe9\xff}", "{}")
OTHER_TAGS = (
    '[Event "#"]',
    '[Event "Wednesday \\"pairs\\""]',
    '[Site "?"]',
    '[West "a;b {c} [d]"]',
    '[Date "2025.03.12"]',
    '[North "\xe9\xff"]',
    '[HomeTeam ""]',
    '[Scoring "MP;Butler"]',
)
TABLES = (
    ['[ScoreTable "Rank\\\\4R;Name\\\\12L;Score\\\\5R"]', '  1 "A; [B] {C}" 62.5', '  2 "D \\" E" 40', "3 - 12"],
    ['[ActionTable "Call\\\\4L"]', "1C 3", "Pass 2"],
    ['[OptimumResultTable "Declarer;Denomination\\\\2R;Result\\\\2R"]', "N NT 7 S  C 6"],
)


def call_word(code: int) -> str:
    return ("Pass", "X", "XX")[code] if code < 3 else f"{(code - 3) // 5 + 1}{STRAINS[(code - 3) % 5]}"


def card_word(card: int) -> str:
    return SUITS[card // 13] + RANKS[card % 13]


class Printer:
    def __init__(self, seed: int) -> None:
        self.chance = random.Random(seed)

    def some(self, percent: int) -> bool:
        return self.chance.randrange(100) < percent

    def game(self, game: dict, said: dict, table: bool) -> str:
        """A whole game; `said` has the values of its other tags."""
        tags = [f'[Board "{game["board"]:0{self.chance.choice((1, 1, 2, 3))}}"]', f'[Deal "{self.deal(game["holders"])}"]']
        tags += [f'[{name} "{value}"]' for name, value in said.items()]
        tags += [f'[Table "{game["table"]}"]'] if table else ['[Table "A1"]'] if self.some(10) else []
        tags += self.chance.sample(OTHER_TAGS, self.chance.randrange(4))
        self.chance.shuffle(tags)
        sections = [self.auction(game)]
        if game["contract"] is not None or self.some(30):
            sections.append(self.play(game))
        if self.some(30):
            sections.append(list(self.chance.choice(TABLES)))
        if self.some(20):
            self.chance.shuffle(sections)
        tags = self.lines_of(tags)
        if self.some(15):
            cut = self.chance.randrange(len(tags) + 1)
            return self.dressed(tags[:cut] + [line for section in sections for line in section] + tags[cut:])
        return self.dressed(tags + [line for section in sections for line in section])

    def lines_of(self, tags: list) -> list:
        """Tags one to a line, or several."""
        lines = []
        for tag in tags:
            if lines and self.some(10):
                lines[-1] += self.chance.choice(("", " ", "\t")) + tag
            else:
                lines.append(tag)
        return lines

    def dressed(self, lines: list) -> str:
        """Lines with comments, escaped lines and blanks; the first line stays the game's first."""
        out = []
        for line in lines:
            if self.some(5):
                line += " " + self.chance.choice(COMMENTS)
            line += self.chance.choice(("", "", "", " ", "\t ", ' ; words [Board "3"] {'))
            out.append(line)
            if self.some(4):
                out.append("% an escaped line {")
        return "\n".join(out) + "\n"

    def deal(self, holders: list) -> str:
        first = self.chance.randrange(4)
        return SEATS[first] + ":" + " ".join(self.hand(holders, (first + k) % 4) for k in range(4))

    def hand(self, holders: list, seat: int) -> str:
        suits = []
        for suit in (3, 2, 1, 0):
            ranks = [RANKS[rank] for rank in reversed(range(13)) if holders[13 * suit + rank] == seat]
            if self.some(20):
                self.chance.shuffle(ranks)
            suits.append("".join(ranks))
        return ".".join(suits)

    def noted(self, word: str) -> list:
        """A word with notes and suffixes, attached or apart; more than one word where apart."""
        words = [word]
        for mark in ("!", "?", "!!", "??", "!?", "$7", "$14", "=1=", "=12="):
            if self.some(2):
                if self.some(50):
                    words.append(mark)
                elif len(words) == 1:
                    words[0] += mark
        return words

    def auction(self, game: dict) -> list:
        calls, words = list(game["calls"]), []
        passes = 0
        while calls and calls[-1] == 0:
            calls.pop()
            passes += 1
        all_pass = self.some(40)
        given = self.chance.randrange(passes + 1) if all_pass else passes
        manner = self.chance.choice((("Pass", "NT"), ("pass", "NT"), ("P", "N"), None))
        marked = False
        for code in calls + [0] * given:
            if code == MARK:
                marked = True
                continue
            word = call_word(code)
            passed, notrump = manner or self.chance.choice((("Pass", "NT"), ("pass", "N"), ("P", "N")))
            word = passed if code == 0 else word.replace("NT", notrump)
            if marked:
                words += [["^I" + word]] if self.some(50) else [["^I", word]]
                marked = False
            else:
                words.append(self.noted(word))
        if all_pass:
            words.append(["AP"])
        if self.some(5):
            words.append(["*"])
        notes = ['[Note "1:strong; or {not}"]', '[Note "12:\\"weak\\""]'] if self.some(20) else []
        return self.section(f'[Auction "{SEATS[(game["board"] - 1) % 4]}"]', words) + notes

    def section(self, tag: str, words: list, width: int = 4) -> list:
        """A tag and its words: so many to a line, one, or all behind the tag."""
        width = self.chance.choice((width, width, width, 1, 7, 1000))
        lines = [" ".join(" ".join(group) for group in words[k : k + width]) for k in range(0, len(words), width)]
        if lines and self.some(10):
            return [tag + " " + lines[0]] + lines[1:]
        return [tag] + lines

    def play(self, game: dict) -> list:
        cards = game["cards"]
        if not cards:
            return self.section(f'[Play "{self.chance.choice(SEATS)}"]', self.chance.choice(([], [["*"]], [["-"], ["-"], ["-"], ["-"], ["*"]])))
        first, places = game["leaders"][0], []
        for trick, leader in enumerate(game["leaders"]):
            row = [None] * 4
            for k, card in enumerate(cards[4 * trick : 4 * trick + 4]):
                row[(leader - first + k) % 4] = card
            places += row
        while self.some(60) and places[-1] is None:
            places.pop()
        words = [["-"] if card is None else self.card(card) for card in places]
        if len(cards) < 52 and self.some(20):
            words += [["-"]] * (4 - len(words) % 4)
        if len(cards) < 52 and self.some(70) or self.some(30):
            words.append(["*"])
        return self.section(f'[Play "{SEATS[first]}"]', words)

    def card(self, card: int) -> list:
        words = self.noted(card_word(card))
        if self.some(2):
            words = ["^R" + words[0]] + words[1:] if self.some(50) else ["^R"] + words
        return words

    def outcome(self, game: dict) -> tuple:
        """The tags of the outcome as they may be written, and the differences that have to be told, in their order: some are wrong."""
        said, due = {}, []
        dealer, declarer, contract = SEATS[(game["board"] - 1) % 4], game["declarer"], game["contract"]
        self._tag(said, due, "Dealer", dealer, [dealer], [seat for seat in SEATS if seat != dealer])
        vulnerable = VULNERABLE[(game["board"] - 1) % 16]
        ways = {"None": ["None", "Love", "-"], "All": ["All", "Both"]}.get(vulnerable, [vulnerable])
        self._tag(said, due, "Vulnerable", vulnerable, ways, [way for way in ("None", "NS", "EW", "All", "x") if way not in ways])
        name = "" if declarer is None else SEATS[declarer]
        self._tag(said, due, "Declarer", name, [name, "^" + name] if name else ["", "?"], [seat for seat in SEATS if seat != name])
        word = "Pass" if contract is None else f"{contract[0]}{STRAINS[contract[1]]}{'X' * contract[2]}"
        self._tag(said, due, "Contract", word, [word, word.replace("NT", "N"), "^" + word], ["7CXX", "1NT"] if word not in ("7CXX", "1NT") else ["2H"])
        self._result(said, due, game)
        self._score(said, due, game)
        return said, due

    def _result(self, said: dict, due: list, game: dict) -> None:
        if game["contract"] is None:
            self._tag(said, due, "Result", "", ["", "?"], ["7", "NS 7"])
            return
        judged = str(game["after"])
        if game["claim"] is None:
            self._tag(said, due, "Result", judged, self._tricks(game, game["after"]), self._tricks(game, (game["after"] + 1) % 14) + ["many"])
            return
        said["Result"] = self.chance.choice(self._tricks(game, game["tricks"]))
        if game["tricks"] != game["after"]:
            due.append(("Result", said["Result"], judged))

    def _tricks(self, game: dict, tricks: int) -> list:
        side, other = ("NS", "EW") if game["declarer"] % 2 == 0 else ("EW", "NS")
        return [
            str(tricks),
            f"^{tricks}",
            f"{side} {tricks}",
            f"{other} {13 - tricks}",
            f"{side} {tricks} {other} {13 - tricks}",
            f"{other} {13 - tricks} {side} {tricks}",
        ]

    def _score(self, said: dict, due: list, game: dict) -> None:
        score, sign = game["score"], -1 if (game["declarer"] or 0) % 2 else 1
        ways = [f"NS {score}", f"EW {-score}", f"NS {score} EW {-score}", str(sign * score)]
        wrong = [f"NS {score + 10}", f"EW {score or 50}", f"NS {score} EW {score or 10}", str(sign * score - 10), "none"]
        self._tag(said, due, "Score", f"NS {score}", ways, wrong)

    def _tag(self, said: dict, due: list, name: str, judged: str, ways: list, wrong: list) -> None:
        if self.some(20):
            if self.some(30):
                said[name] = self.chance.choice(("", "?"))
            return
        if self.some(85):
            said[name] = self.chance.choice(ways)
        else:
            said[name] = self.chance.choice(wrong)
            due.append((name, said[name], judged))


def subset(game: dict) -> str:
    """A game that was played out, in the strict subset of docs/RULES.md, 15."""
    printer = Printer(0)
    printer.some = lambda percent: False
    deal = "N:" + " ".join(printer.hand(game["holders"], seat) for seat in range(4))
    lines = [f'[Board "{game["board"]}"]', f'[Deal "{deal}"]', f'[Auction "{SEATS[(game["board"] - 1) % 4]}"]']
    calls = [call_word(code) for code in game["calls"]]
    lines += [" ".join(calls[k : k + 4]) for k in range(0, len(calls), 4)]
    if game["cards"]:
        first = game["leaders"][0]
        lines.append(f'[Play "{SEATS[first]}"]')
        for trick, leader in enumerate(game["leaders"]):
            row = {(leader - first + k) % 4: card for k, card in enumerate(game["cards"][4 * trick : 4 * trick + 4])}
            lines.append(" ".join(card_word(row[column]) for column in range(4)))
    return "".join(line + "\n" for line in lines)
