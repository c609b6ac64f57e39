//! Texts in Portable Bridge Notation for conditional jumps of the reader that the other trials do not make go both ways: lines with one byte changed to every
//! other, words that a space follows, the most calls that are kept, and a Deal line that ends too early.
use outside::{pbn, proved};

const FRONT: [&str; 3] =
    ["[Board \"1\"]", "[Deal \"N:...AKQJT98765432 ..AKQJT98765432. .AKQJT98765432.. AKQJT98765432...\"]", "[Auction \"N\"]"];
const BEFORE: u8 = 0xEE;

/// A text as both readers read it: the number returned.
fn compare(text: &[u8]) -> u32 {
    let (mut own, mut proved) = ([BEFORE; 505], [BEFORE; 505]);
    let number = pbn::read(text, 3, &mut own);
    assert_eq!(proved::read_pbn(text, 3, &mut proved), number, "for {}", String::from_utf8_lossy(text));
    assert_eq!(own, proved, "for {}", String::from_utf8_lossy(text));
    number
}

/// Lines, each with its newline.
fn lines(front: [&str; 3], rest: &[&str]) -> Vec<u8> {
    front.iter().chain(rest).flat_map(|line| line.bytes().chain([b'\n'])).collect()
}

/// Each byte of a part of a text changed to every other, and left out.
fn each_byte(text: &[u8], from: usize, to: usize) {
    for at in from..to {
        let mut changed = text.to_vec();
        for byte in 0..=255 {
            changed[at] = byte;
            compare(&changed);
        }
        changed.remove(at);
        compare(&changed);
    }
}

#[test]
fn board_lines() {
    for board in ["1", "25", "125", "998", "0", "00", "1000"] {
        let line = format!("[Board \"{board}\"]");
        each_byte(&lines([&line, FRONT[1], FRONT[2]], &["Pass Pass Pass Pass"]), 0, line.len());
    }
}

/// The lines of Auction and Play with each seat.
#[test]
fn seat_lines() {
    for (k, seat) in ["N", "E", "S", "W"].into_iter().enumerate() {
        let (board, auction) = (format!("[Board \"{}\"]", k + 1), format!("[Auction \"{seat}\"]"));
        let text = lines([&board, FRONT[1], &auction], &["1NT Pass Pass Pass", "[Play \"E\"]"]);
        let at = board.len() + FRONT[1].len() + 2;
        each_byte(&text, at, at + auction.len());
        let play = format!("[Play \"{seat}\"]");
        let text = lines(FRONT, &["1NT Pass Pass Pass", &play]);
        each_byte(&text, text.len() - play.len() - 1, text.len());
    }
}

/// Deal lines with no hand, and without the last bytes; among them one that ends in the last hand's second dot, and says each card's holder all the same.
#[test]
fn deal_lines_that_end_early() {
    for first in ["N", "E", "S", "W"] {
        let line = FRONT[1].replacen('N', first, 1);
        for end in 0..=line.len() {
            let due = if end == line.len() { 20 } else { 32 * 1024 + 2 };
            assert_eq!(compare(&lines([FRONT[0], &line[..end], FRONT[2]], &["Pass Pass Pass Pass"])), due);
        }
        assert_eq!(compare(&lines([FRONT[0], &format!("[Deal \"{first}:\"]"), FRONT[2]], &["Pass Pass Pass Pass"])), 32 * 1024 + 2);
    }
}

/// Lines of one to five words with a space before, behind or twice between them, in place of calls and of cards.
#[test]
fn spaces_among_words() {
    for words in 1..=5 {
        for (word, before) in [("Pass", &[][..]), ("C2", &["1NT Pass Pass Pass", "[Play \"E\"]"][..])] {
            let line = vec![word; words].join(" ");
            let spaced = [format!(" {line}"), format!("{line} "), line.replacen(' ', "  ", 1), format!("{line}  ")];
            for text in spaced {
                compare(&lines(FRONT, &[before, &[text.as_str()]].concat()));
            }
        }
    }
}

/// Calls about the most that are kept, the last line of them of each length: 33 with place 511 once there are more.
#[test]
fn the_most_calls() {
    for full in 125..131 {
        for last in ["", "Pass", "Pass Pass", "Pass Pass Pass"] {
            let mut rest = vec!["Pass Pass Pass Pass"; full];
            rest.extend((!last.is_empty()).then_some(last));
            let calls = 4 * full + last.split_terminator(' ').count();
            let due = if calls > 511 { 33 * 1024 + 511 } else { 8 * 1024 + 4 };
            assert_eq!(compare(&lines(FRONT, &rest)), due, "{calls} calls");
        }
    }
}
