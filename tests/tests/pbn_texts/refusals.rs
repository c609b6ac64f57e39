//! Texts of the subset that are refused: each number and place, their order, and cards in columns.
use super::{calls, read, refused, text, whole, with, LINES, READERS, TABLE};

/// A hand of fourteen: North has East's nine of spades; South, the tag from West on, has West's five of spades; East, the tag from South on, has South's eight.
const FOURTEEN_N: &str = "[Deal \"N:AKQ9.876.543.JT92 JT.543.AKQ2.876 876.AKQ2.JT9.543 5432.JT9.876.AKQ\"]";
const FOURTEEN_S: &str = "[Deal \"W:432.JT9.876.AKQ AKQ.876.543.JT92 JT9.543.AKQ2.876 8765.AKQ2.JT9.543\"]";
const FOURTEEN_E: &str = "[Deal \"S:76.AKQ2.JT9.543 5432.JT9.876.AKQ AKQ.876.543.JT92 JT98.543.AKQ2.876\"]";

#[test]
fn each_refusal() {
    let board = |number: u32| with(1, &[&format!("[Board \"{number}\"]")]);
    refused(&[
        (3, 0, board(128)),
        (3, 0, board(129)),
        (3, 0, board(256)),
        (3, 0, board(999)),
        (32, 3, board(2)),
        (32, 3, board(127)),
        (32, 3, with(3, &["[Auction \"E\"]"])),
        (32, 3, with(3, &["[Auction \"W\"]"])),
        (4, 0, with(2, &[FOURTEEN_N])),
        (4, 2, with(2, &[FOURTEEN_S])),
        (4, 1, with(2, &[FOURTEEN_E])),
        (6, 1, calls(&["1NT 1S Pass Pass"])),
        (6, 4, calls(&["1NT Pass 2C Pass", "2C"])),
        (7, 0, calls(&["X"])),
        (7, 2, calls(&["1NT Pass X Pass"])),
        (7, 1, calls(&["1NT XX Pass Pass"])),
        (8, 4, calls(&["1NT Pass Pass Pass", "Pass"])),
        (9, 4, calls(&["1NT X Pass Pass"])),
        // Play is missing, is there for a board that was passed out, or names another seat than the one after declarer.
        (32, 5, calls(&["1NT Pass Pass Pass"])),
        (32, 6, calls(&["Pass 1NT Pass Pass", "Pass"])),
        (32, 5, with(4, &["Pass Pass Pass Pass"])),
        (32, 5, with(5, &["[Play \"N\"]"])),
        (32, 5, with(5, &["[Play \"S\"]"])),
        (32, 6, with(4, &["Pass Pass 1NT Pass", "Pass Pass"])),
        (12, 0, with(6, &["D9 DA D6 D3"])),
        (12, 51, with(18, &["HA H2 S2 CJ"])),
        (23, 51, with(18, &["DA H2 S2 CJ"])),
    ]);
    for reader in READERS {
        for table in [0, 512, 513, 1024 + 3, 1 << 31, u32::MAX] {
            assert_eq!(read(reader, &whole(), table, 300).0, 3 * 1024 + 1, "table {table}");
        }
        assert_eq!(read(reader, &whole(), 511, 300).0, 59);
    }
}

/// Where two refusals or more apply, the first of them in the order is given.
#[test]
fn order_of_refusals() {
    let tags = |board: &str, deal: &str, auction: &str| [board, deal, auction].map(String::from);
    let made = |tags: &[String; 3], behind: &[&str]| text(&[&tags.each_ref().map(String::as_str)[..], behind].concat());
    let (over, wrong_dealer) = ("[Board \"128\"]", "[Auction \"E\"]");
    let behind = &LINES[3..];
    let many = vec!["Pass Pass Pass Pass"; 128];
    refused(&[
        // 32 of the subset before all else, the last line too.
        (32, 18, made(&tags(over, FOURTEEN_N, wrong_dealer), &[&behind[..14], &["D2 H2 S2"]].concat())),
        (32, 132, made(&tags(over, LINES[1], LINES[2]), &[&many[..], &["1N"]].concat())),
        // 3, then the dealer, then 4, then 33, then the calls.
        (3, 0, made(&tags(over, FOURTEEN_N, wrong_dealer), behind)),
        (32, 3, made(&tags(LINES[0], FOURTEEN_N, wrong_dealer), behind)),
        (4, 0, made(&tags(LINES[0], FOURTEEN_N, LINES[2]), &many)),
        (33, 511, made(&tags(LINES[0], LINES[1], LINES[2]), &many)),
        (33, 511, made(&tags(LINES[0], LINES[1], LINES[2]), &[&many[..], &behind[1..]].concat())),
        // In order of calls, 8 before 6; 9 before Play; Play before the cards; the earlier card.
        (6, 1, calls(&["1NT 1C X Pass"])),
        (8, 4, calls(&["1NT Pass Pass Pass", "1C"])),
        (9, 3, text(&[&LINES[..3], &["1NT Pass Pass", "[Play \"N\"]"], &behind[2..]].concat())),
        (6, 1, text(&[&LINES[..3], &["1NT 1C Pass Pass", "[Play \"N\"]"], &behind[2..]].concat())),
        (32, 5, text(&[&LINES[..4], &["[Play \"S\"]", "D9 DA D6 D3"], &behind[3..]].concat())),
    ]);
    for reader in READERS {
        // 3 of the board before that of the table; the table before the dealer; 22 behind all others.
        assert_eq!(read(reader, &with(1, &[over]), 0, 300).0, 3 * 1024);
        assert_eq!(read(reader, &with(3, &[wrong_dealer]), 0, 300).0, 3 * 1024 + 1);
        assert_eq!(read(reader, &with(18, &["HA H2 S2 CJ"]), TABLE, 0).0, 12 * 1024 + 51);
        assert_eq!(read(reader, &with(5, &["[Play \"S\"]"]), TABLE, 0).0, 32 * 1024 + 5);
        assert_eq!(read(reader, "", 0, 0).0, 32 * 1024 + 1);
    }
}

/// W leads to the fifth trick: its cards are plays 16 to 19 in the order W, N, E, S, and stand in the columns E, S, W, N.
#[test]
fn columns() {
    refused(&[
        // Another's card at E's, S's, W's and N's turn.
        (12, 18, with(10, &["D9 C4 CA C9"])),
        (12, 19, with(10, &["C7 SA CA C9"])),
        (12, 16, with(10, &["C7 C4 D2 C9"])),
        (12, 17, with(10, &["C7 C4 CA DA"])),
        // A card twice: this seat's own, played before; another seat's, played before or in this trick.
        (23, 18, with(10, &["C6 C4 CA C9"])),
        (23, 16, with(10, &["C7 C4 CQ C9"])),
        (12, 18, with(10, &["CQ C4 CA C9"])),
        (12, 18, with(10, &["CA C4 CA C9"])),
        (12, 17, with(10, &["C7 C4 CA CA"])),
        // Of two wrong cards of a trick the first in order of play counts: W's before E's.
        (23, 16, with(10, &["D9 C4 CQ C9"])),
        (12, 16, with(10, &["C6 C4 D2 C9"])),
        // S leads to the last trick: plays 48 to 51 are S, W, N, E.
        (23, 48, with(18, &["D2 HA S2 CJ"])),
        (23, 51, with(18, &["DA H2 S2 CJ"])),
    ]);
    // E's king of diamonds twice, on lines 7 and 8: the second is play 8.
    refused(&[(23, 8, with(8, &["DK DJ D8 D5"]))]);
}
