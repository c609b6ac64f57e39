"""What each sentence on files of games says, one case each."""
import unittest

from clubscore import Refused, judge
from clubscore.pbn import Difference, games

from .common import MIXED

DEAL = f'[Deal "N:{MIXED}"]\n'
WHOLE = """DA D9 D6 D3
DK DT D7 D4
DQ DJ D8 D5
C6 C3 CQ C2
C7 C4 CA C9
C8 C5 CK CT
S9 S6 S3 SA
ST S7 S4 SK
SJ S8 S5 SQ
H3 HA H9 H6
H4 HK HT H7
H5 HQ HJ H8
D2 H2 S2 CJ
"""


def game_of(auction="1NT AP\n", play=WHOLE, tags="", board="1", deal=DEAL):
    board = f'[Board "{board}"]\n' if board is not None else ""
    play = f'[Play "E"]\n{play}' if play is not None else ""
    return f'{board}{deal}{tags}[Auction "N"]\n{auction}{play}'


def only(text, table=None):
    """The one game of a text."""
    found = games(text.encode("latin-1") if isinstance(text, str) else text, table)
    if len(found) != 1:
        raise AssertionError(f"{len(found)} games")
    return found[0]


DUE = only(game_of()).record


class Games(unittest.TestCase):
    def test_whole(self):
        self.assertEqual((judge(DUE).score, str(judge(DUE).contract), judge(DUE).table), (90, "1NT", 1))

    def test_read_alike(self):
        ways = [
            game_of().replace("\n", "\r\n"),
            game_of().replace("\n", "\r"),
            "\xef\xbb\xbf" + game_of(),
            game_of() + "\x1a",
            "\n\n \t\n" + game_of() + " \n\t\n",
            "% escaped {\n" + game_of(),
            "; [Board\n" + game_of(),
            '{a comment\n\n[Board "9"]}' + game_of(),
            game_of("1NT{x}AP\n"),
            game_of("1NT ; x\nAP\n"),
            game_of("1NT Pass Pass\nPass\n"),
            game_of("1NT\nP\npass\nPass" "\n"),
            game_of("1N Pass AP\n"),
            game_of("1NT Pass Pass AP\n"),
            game_of("1NT Pass Pass Pass AP\n"),
            game_of("1NT! AP\n"),
            game_of("1NT !! AP\n"),
            game_of("1NT=1= Pass =12= AP $7\n"),
            game_of("1NT$7 AP\n"),
            game_of("1NT=1=! $1 AP *\n"),
            game_of(play=WHOLE + "*\n"),
            game_of(play=WHOLE.replace("\n", " ")),
            game_of(play=WHOLE.replace(" ", "\n")),
            game_of(play=WHOLE.replace("DA", "DA!? =3=")),
            game_of(play=WHOLE.replace("DA", "^R DA").replace("DK", "^RDK")),
            game_of(tags='[Event "a\\"b"][Site "?"]\n'),
            game_of(tags='[Note "1:x"]\n'),
            game_of(deal=DEAL.replace("AKQ.876", "QAK.687")),
            game_of(tags='[ScoreTable "A;B"]\n1 "; { [" 2\n"x\n'),
            game_of(tags='[Room\n"Open"\n]\n'),
            game_of(deal='[Deal "E:JT9.543.AKQ2.876 876.AKQ2.JT9.543 5432.JT9.876.AKQ AKQ.876.543.JT92"]\n'),
            game_of(board="01"),
            game_of(board=" 1 "),
            game_of().replace("\n", "  \t\n"),
            game_of().replace('[Auction "N"]\n', '[Auction "N"]\t'),
            game_of(tags='[Table "x1"]\n'),
            game_of(tags='[Table ""]\n'),
            game_of(tags='[Note "1:x"]\n') + '[Note "2:y"]\n',
            game_of(tags='[West "\xff\xfe"]\n'),
            game_of(tags='[Board "1"]\n'),
        ]
        for text in ways:
            game = only(text)
            self.assertEqual((game.record, game.left_out), (DUE, None), text)

    def test_sections_in_any_order(self):
        text = '[Play "E"]\n' + WHOLE + '[Auction "N"]\n1NT AP\n' + DEAL + '[Board "1"]\n'
        self.assertEqual(only(text).record, DUE)
        self.assertEqual(only('[Play "E"]\n' + WHOLE[:12] + '[Note "1:x"]\n' + WHOLE[12:] + '[Auction "N"]\n1NT AP\n' + DEAL + '[Board "1"]\n').record, DUE)

    def test_numbers_and_lines(self):
        text = "\n{x}\n\n" + game_of() + "\n" + game_of() + "  \n" + game_of(board="2", auction="Q\n")
        found = games(text.encode())
        self.assertEqual([(game.number, game.line, game.board, game.table) for game in found], [(1, 4, 1, 1), (2, 23, 1, 2), (3, 42, 2, 1)])

    def test_no_game(self):
        for text in ("", "\n", "% x\n", "{only\n\na comment}\n", "; x", "\xef\xbb\xbf"):
            self.assertEqual(games(text.encode("latin-1")), [])

    def test_words_outside(self):
        found = games(("hello\nworld\n" + game_of() + "\nthe end").encode())
        self.assertEqual(
            [(game.line, game.left_out) for game in found], [(1, "line 1: words outside any game"), (3, None), (22, "line 22: words outside any game")]
        )

    def test_types(self):
        for wrong in ("x", 1, None, [1]):
            self.assertRaises(TypeError, games, wrong)
        self.assertRaises(TypeError, games, b"", "1")
        self.assertEqual(games(bytearray(game_of().encode()))[0].record, DUE)


class Tables(unittest.TestCase):
    def tables(self, *texts, table=None):
        return [game.table for game in games("\n".join(texts).encode(), table)]

    def test_order(self):
        tagged, plain, wrong = game_of(tags='[Table "7"]\n'), game_of(), game_of("Q\n")
        self.assertEqual(self.tables(plain, tagged, plain, wrong, game_of(board="2"), plain), [1, 7, 3, 4, 1, 5])
        self.assertEqual(self.tables(plain, tagged, wrong, table=9), [9, 7, 9])
        cut = game_of(tags='[Event "cut\n')
        self.assertEqual(self.tables(cut, plain, cut, plain), [1, 2, 3, 4])

    def test_refused(self):
        for table, beyond in (("0", None), ("512", None), ("9" * 5000, None), ("", 0), ("", 512), ("", -1), ("", 2**32 + 1)):
            game = only(game_of(tags=f'[Table "{table}"]\n'), beyond)
            self.assertEqual((game.refused, game.left_out), (Refused(3, 1), "table not 1 to 511"))

    def test_same_again(self):
        first = game_of(tags='[Table "7"]\n[Contract "1NT"]\n')
        again = '[Board "#"]\n[Deal "#"]\n[Table "#"]\n[Contract "#"]\n[Dealer "#"]\n[Auction "#"]\n2NT AP\n[Play "#"]\n' + WHOLE
        found = games((first + "\n" + again).encode())
        self.assertEqual([(game.board, game.table, game.differences) for game in found], [(1, 7, ()), (1, 7, (Difference("Contract", "1NT", "2NT"),))])
        left_out = games((game_of("Q\n") + "\n" + again).encode())
        self.assertEqual([game.left_out for game in left_out], ["line 4: Q, which is no call", None])
        cut = games((game_of(tags='[Event "cut\n[Table "9"]\n') + "\n" + again).encode())
        self.assertEqual([(game.table, game.left_out is None) for game in cut], [(9, False), (9, True)])
        beyond = games((game_of() + "\nwords of no game\n\n" + again).encode())
        self.assertEqual([(game.board, game.left_out is None) for game in beyond], [(1, True), (None, False), (1, True)])
        self.assertEqual(only(again.replace("2NT", "1NT")).left_out, "without Board no record can be made")


class EndedEarly(unittest.TestCase):
    def record(self, play, result="8", **named):
        return only(game_of(play=play, tags=f'[Result "{result}"]\n', **named))

    def test_claims(self):
        three = WHOLE[:36]
        for play in (three, three + "*\n", three + "- - - -\n*", three.replace("DJ D8 D5\n", "DJ D8 D5 *"), three + "-\n"):
            j = judge(self.record(play).record)
            self.assertEqual((j.tricks, j.score, len(j.winners)), (8, 120, 3), play)

    def test_unfinished_trick(self):
        four = WHOLE[:48]
        for play, count in ((four + "- - CA", 17), (four + "- - CA C9 *", 18), (four + "C7 - CA C9", 19), (four + "C7 - CA C9 - *", 19)):
            record = self.record(play).record
            self.assertEqual(len(judge(record).winners), 4, play)
            self.assertEqual(int.from_bytes(record, "big") >> (8 * len(record) - 129 - 24 - 6) & 63, count)

    def test_who_led(self):
        game = self.record(WHOLE[:48] + "C7")
        self.assertEqual(game.left_out, "line 11: trick 5 has a card and not the one that was played before it")
        self.assertEqual(self.record("DA D9 - D3\nDK").left_out, "line 7: a place that was not played, and a later trick")

    def test_result_says(self):
        three = WHOLE[:36]
        for result in ("8", "^8", "NS 8", "EW 5", "NS 8 EW 5", "EW 5 NS 8", "EW5"):
            self.assertEqual(judge(self.record(three, result).record).tricks, 8, result)
        for result in ("", "?", "NS 8 EW 6", "made", "NS 8 NS 8", "#"):
            self.assertEqual(self.record(three, result).left_out, "the play ended after 12 cards, and Result does not say with how many tricks", result)
        refused = self.record(three, "11")
        self.assertEqual((refused.refused, refused.left_out), (Refused(15, 11), "claim of 11: more tricks than are left"))
        self.assertEqual(self.record(WHOLE[:-12], "5").left_out, "line 3: Result says 5 tricks of declarer's side, and it won 6 before the play ended")

    def test_no_card(self):
        words = "no card was played, and without one no record can be made of a contract"
        for play in (None, "", "*\n", "- - - -\n"):
            game = only(game_of(play=play, tags='[Result "8"]\n'))
            self.assertTrue(game.left_out.startswith(words), game.left_out)

    def test_passed_out(self):
        for play in (None, "", "*\n", "- - - -\n*\n"):
            self.assertIsNone(judge(only(game_of("AP\n", play)).record).contract)
        self.assertEqual(only(game_of("AP\n", "DA\n")).refused.number, 32)

    def test_insufficient_bid(self):
        auction = "1S Pass 2S Pass 3S Pass 4S ^I 4H AP\n"
        due = game_of(auction, "SA S9 S6 S2\n", '[Result "9"]\n').replace('Play "E"', 'Play "N"')
        for text in (due, due.replace("^I 4H", "^I4H"), due.replace("^I 4H", "^I 4H!")):
            self.assertEqual((str(judge(only(text).record).contract), judge(only(text).record).score), ("4H", 50))
        self.assertEqual(only(due.replace("^I ", "")).refused, Refused(6, 7))
        self.assertEqual(only(due.replace("4H", "5H")).refused, Refused(24, 7))
        self.assertEqual(only(due.replace('Play "N"', 'Play "E"')).left_out, "line 6: Play is not from the opening leader on")
        self.assertEqual(only(due.replace('Auction "N"', 'Auction "E"')).left_out, "line 4: Auction is not from the board's dealer on")
        self.assertTrue(only(due[: due.index("[Play")]).left_out.startswith("no card was played"))


class LeftOut(unittest.TestCase):
    def test_words(self):
        cases = [
            (game_of("^L 1NT AP\n"), "line 4: ^L, which a record cannot say"),
            (game_of("^S AP\n"), "line 4: ^S, which a record cannot say"),
            (game_of("1NT - AP\n"), "line 4: - among the calls, which a record cannot say"),
            (game_of("1NT +\n"), "line 4: + among the calls, which a record cannot say"),
            (game_of(play="DA\n+\n"), "line 7: +, an unfinished play, which a record cannot say"),
            (game_of(play="^L DA\n"), "line 6: ^L, which a record cannot say"),
            (game_of("1NT XXX AP\n"), "line 4: XXX, which is no call"),
            (game_of(play="DA D10\n"), "line 6: D10, which is no card"),
            (game_of("8C AP\n"), "line 4: 8C, which is no call"),
            (game_of('"1C" AP\n'), 'line 4: "1C", which is no call'),
            (game_of(tags='[Event "x\n'), "line 3: a tag without its end, or without a name and a value in quotes"),
            (game_of(tags="[Event x]\n"), "line 3: a tag without its end, or without a name and a value in quotes"),
            (game_of(tags="{x\n"), "line 3: a comment without its end"),
            (game_of(board="x"), 'line 1: Board "x", which is no number'),
            (game_of(board=None), "without Board no record can be made"),
            (game_of(deal=""), "without Deal no record can be made"),
            ('[Board "1"]\n' + DEAL + '[Contract "1NT"]\n[Result "7"]', "without Auction no record can be made"),
            (game_of(""), "without a call no record can be made"),
            (game_of("", None).replace('Auction "N"', 'Auction ""'), "without Auction no record can be made"),
            (game_of(deal=DEAL.replace("AKQ.876", "AKQ.886")), "line 2: Deal: H8 stands twice"),
            (game_of(deal=DEAL.replace("AKQ.876", "AKQ.86")), "line 2: Deal: no hand has H7"),
            (game_of(deal=DEAL.replace("AKQ.876", "AKQ.1086")), "line 2: Deal: AKQ.1086.543.JT92, which is no hand"),
            (game_of(deal='[Deal "N:- - - -"]\n'), "line 2: Deal: -, which is no hand"),
            (game_of(deal=DEAL.replace("N:", "Q:")), 'line 2: Deal "Q", which is no seat'),
            (game_of(deal='[Deal "N:AKQ"]\n'), "line 2: Deal: not four hands"),
            (game_of().replace('Auction "N"', 'Auction "x"'), 'line 3: Auction "x", which is no seat'),
            (game_of(play=WHOLE + "* DA\n"), "line 19: DA behind the end of the play"),
            (game_of(play=WHOLE + "DA\n"), "line 19: more than 13 tricks of four cards"),
            (game_of(tags='[Board "2"]\n'), "line 3: a second Board tag"),
            (game_of() + '[Play "E"]\n', "line 19: a second Play tag"),
            (game_of("1NT AP * Pass\n"), "line 4: Pass behind the end of the auction"),
            (game_of("\x1b[2J\n"), "line 4: a tag without its end, or without a name and a value in quotes"),
            (game_of("\x1b2J\n"), "line 4: \\x1b2J, which is no call"),
            (game_of("x" * 100 + "\n"), "line 4: " + "x" * 40 + ".., which is no call"),
        ]
        for text, words in cases:
            game = only(text)
            self.assertEqual((game.left_out, game.record, game.differences, game.refused), (words, None, (), None), text)

    def test_refused_by_the_library(self):
        cases = [
            (game_of(board="0"), (3, 0)),
            (game_of(board="128"), (3, 0)),
            (game_of(board="4" * 30), (3, 0)),
            (game_of(deal=DEAL.replace("876.543.JT92", "876.543.JT924").replace("876.AKQ2.JT9.543", "876.AKQ2.JT9.53")), (4, 0)),
            (game_of("1D 1C AP\n"), (6, 1)),
            (game_of("X AP\n"), (7, 0)),
            (game_of("1NT AP Pass\n"), (8, 4)),
            (game_of("1NT Pass\n"), (9, 2)),
            (game_of("P " * 512 + "\n"), (33, 511)),
            (game_of(play=WHOLE.replace("DA D9", "D9 DA")), (12, 0)),
            (game_of(play=WHOLE.replace("DK", "DA")), (23, 4)),
            (game_of(play="D9 DA\n", tags='[Result "7"]\n'), (12, 0)),
            (game_of(play="DA D9 D6 D3\nDA\n", tags='[Result "7"]\n'), (23, 4)),
            (game_of(board="2"), (32, 3)),
            (game_of().replace('Play "E"', 'Play "S"'), (32, 5)),
            (game_of(play="DA\n", tags='[Result "7"]\n').replace('Play "E"', 'Play "S"'), (32, 5)),
            (game_of(play="DA\n", tags='[Result "7"]\n', board="2"), (32, 3)),
        ]
        for text, (number, place) in cases:
            game = only(text)
            self.assertEqual((game.refused, game.record), (Refused(number, place), None), text)
            self.assertIn(str(game.refused), game.left_out)

    def test_others_are_read(self):
        for wrong in ("{cut\n", '[Event "cut\n', "[Cut\n", game_of("Q\n"), '{cut\n\n[Board "1"] {and\n'):
            found = games((game_of() + "\n" + wrong + "\n" + game_of(tags="{a comment}\n")).encode())
            self.assertEqual([found[0].record, found[-1].left_out], [DUE, None], wrong)
            self.assertTrue(all(game.left_out for game in found[1:-1]) and len(found) > 2)


class Differences(unittest.TestCase):
    def said(self, **tags):
        return only(game_of(tags="".join(f'[{name} "{value}"]\n' for name, value in tags.items()))).differences

    def test_agree(self):
        for tags in (
            dict(Dealer="N"),
            dict(Vulnerable="None"),
            dict(Vulnerable="Love"),
            dict(Vulnerable="-"),
            dict(Declarer="N"),
            dict(Declarer="^N"),
            dict(Contract="1NT"),
            dict(Contract="1N"),
            dict(Result="7"),
            dict(Result="NS 7"),
            dict(Result="EW 6"),
            dict(Result="EW 6 NS 7"),
            dict(Score="90"),
            dict(Score="NS 90"),
            dict(Score="EW -90"),
            dict(Score="NS 90 EW -90"),
            dict(Score="NS +90"),
            dict(Dealer=""),
            dict(Score="?"),
            dict(Result="#"),
        ):
            self.assertEqual(self.said(**tags), (), tags)

    def test_differ(self):
        judged = {"Dealer": "N", "Vulnerable": "None", "Declarer": "N", "Contract": "1NT", "Result": "7", "Score": "NS 90"}
        wrong = {
            "Dealer": ("E", "n", "North"),
            "Vulnerable": ("All", "Both", "none"),
            "Declarer": ("S", "^S"),
            "Contract": ("1NTX", "2NT", "1C", "Pass"),
            "Result": ("8", "NS 8", "EW 7", "NS 7 EW 7", "+1"),
            "Score": ("-90", "NS 120", "EW 90", "NS 90 EW 90", "90.5"),
        }
        for tag, ways in wrong.items():
            for way in ways:
                self.assertEqual(self.said(**{tag: way}), (Difference(tag, way, judged[tag]),))
        self.assertEqual(
            [difference.tag for difference in self.said(Score="1", Result="1", Contract="7C", Declarer="W", Vulnerable="EW", Dealer="W")], list(judged)
        )

    def test_passed_out(self):
        tags = '[Declarer "N"]\n[Contract "1C"]\n[Result "7"]\n[Score "NS 10"]\n'
        due = (Difference("Declarer", "N", ""), Difference("Contract", "1C", "Pass"), Difference("Result", "7", ""), Difference("Score", "NS 10", "NS 0"))
        self.assertEqual(only(game_of("AP\n", None, tags)).differences, due)
        self.assertEqual(only(game_of("AP\n", None, '[Declarer ""]\n[Contract "Pass"]\n[Result ""]\n[Score "0"]\n')).differences, ())
