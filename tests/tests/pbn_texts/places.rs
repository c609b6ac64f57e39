//! The place of 32 for texts outside the subset: each kind of wrong line, lines beyond 1023, and a text cut at every byte.
use super::{calls, outside, passes, refused, text, whole, with, LINES};

#[test]
fn places_of_tags() {
    let deal = |value: &str| (2, with(2, &[&format!("[Deal \"{value}\"]")]));
    let tag = |line: usize, tag: &str| (line as u32, with(line, &[tag]));
    outside(&[
        (1, String::new()),
        (1, "\n".to_string()),
        (1, whole().replace('\n', "\r\n")),
        (1, format!("\u{feff}{}", whole())),
        (1, format!("\n{}", whole())),
        (1, format!("% PBN 2.1\n{}", whole())),
        (1, "[Board \"1\"]".to_string()),
        (2, "[Board \"1\"]\n".to_string()),
        (2, "[Board \"1\"]\n\n".to_string()),
        tag(1, "[Board \"0\"]"),
        tag(1, "[Board \"07\"]"),
        tag(1, "[Board \"1000\"]"),
        tag(1, "[Board \"\"]"),
        tag(1, "[Board 1]"),
        tag(1, "[board \"1\"]"),
        tag(1, "[Board  \"1\"]"),
        tag(1, "[Board \"1\"] "),
        tag(1, " [Board \"1\"]"),
        (2, with(2, &[])),
        (2, with(2, &["[Dealer \"N\"]", LINES[1]])),
        // A card twice, one missing, not highest first, 10 for the ten, - for a void and for a hand.
        deal("N:AKQ2.876.543.JT92 JT9.543.AKQ2.876 876.AKQ2.JT9.543 5432.JT9.876.AKQ"),
        deal("N:AK.876.543.JT92 JT9.543.AKQ2.876 876.AKQ2.JT9.543 5432.JT9.876.AKQ"),
        deal("N:AK2.876.543.JT92 JT9.543.AKQ2.876 876.AKQ2.JT9.543 5432.JT9.876.AKQ"),
        deal("N:KAQ.876.543.JT92 JT9.543.AKQ2.876 876.AKQ2.JT9.543 5432.JT9.876.AKQ"),
        deal("N:AKQ.876.543.J1092 J109.543.AKQ2.876 876.AKQ2.J109.543 5432.J109.876.AKQ"),
        deal("N:-.-.-.AKQJT98765432 ..AKQJT98765432. .AKQJT98765432.. AKQJT98765432..."),
        deal("N:- JT9.543.AKQ2.876 876.AKQ2.JT9.543 5432.JT9.876.AKQ"),
        // Two spaces, three hands, five, four dots, two, a small letter, no such rank, no such seat, no seat.
        deal("N:AKQ.876.543.JT92  JT9.543.AKQ2.876 876.AKQ2.JT9.543 5432.JT9.876.AKQ"),
        deal("N:AKQ.876.543.JT92 JT9.543.AKQ2.876 876.AKQ2.JT9.543"),
        deal("N:AKQ.876.543.JT92 JT9.543.AKQ2.876 876.AKQ2.JT9.543 5432.JT9.876.AKQ ..."),
        deal("N:AKQ.876.543.JT92. JT9.543.AKQ2.876 876.AKQ2.JT9.543 5432.JT9.876.AKQ"),
        deal("N:AKQ.876.543JT92 JT9.543.AKQ2.876 876.AKQ2.JT9.543 5432.JT9.876.AKQ"),
        deal("N:akq.876.543.jt92 JT9.543.AKQ2.876 876.AKQ2.JT9.543 5432.JT9.876.AKQ"),
        deal("N:AKX.876.543.JT92 JT9.543.AKQ2.876 876.AKQ2.JT9.543 5432.JT9.876.AKQ"),
        deal("n:AKQ.876.543.JT92 JT9.543.AKQ2.876 876.AKQ2.JT9.543 5432.JT9.876.AKQ"),
        deal("AKQ.876.543.JT92 JT9.543.AKQ2.876 876.AKQ2.JT9.543 5432.JT9.876.AKQ"),
        deal(""),
        tag(3, "[Auction \"n\"]"),
        tag(3, "[Auction \"\"]"),
        tag(3, "[Auction \"NE\"]"),
        tag(3, "[Play \"N\"]"),
        (3, with(3, &[])),
        tag(5, "[Play \"X\"]"),
        tag(5, "[play \"E\"]"),
        tag(5, "[Play \"E\"] "),
    ]);
}

#[test]
fn places_of_calls_and_cards() {
    let call = |word: &str| (4, with(4, &[&format!("1NT {word} Pass Pass")]));
    let card = |word: &str| (10, with(10, &[&format!("C7 {word} CA C9")]));
    outside(&[
        (4, calls(&[])),
        (4, calls(&[""])),
        (4, with(4, &[])),
        (4, with(4, &["1NT Pass Pass Pass Pass"])),
        (4, with(4, &["1NT  Pass Pass Pass"])),
        (4, with(4, &[" 1NT Pass Pass Pass"])),
        (4, with(4, &["1NT Pass Pass Pass "])),
        (4, with(4, &["1NT\tPass Pass Pass"])),
        call("1N"),
        call("AP"),
        call("8C"),
        call("0C"),
        call("XXX"),
        call("pass"),
        call("P"),
        call("2nt"),
        call("-"),
        call("2C!"),
        call("=1="),
        call("*"),
        // A short line could be the last one: the line behind it is named, calls or not.
        (5, with(4, &["1NT Pass Pass", "Pass"])),
        (6, with(4, &["Pass Pass Pass 1NT", "Pass", "Pass Pass"])),
        (5, with(4, &["1NT Pass Pass Pass", ""])),
        (5, with(5, &[])),
        (5, with(5, &["[Note \"1:strong\"]", LINES[4]])),
        (6, text(&LINES[..5])),
        (6, with(6, &[""])),
        card("10"),
        card("S1"),
        card("s2"),
        card("Sa"),
        card("2S"),
        card("SX"),
        card("-"),
        card("S"),
        card("Pass"),
        (10, with(10, &["C7 C4 CA"])),
        (10, with(10, &["C7 C4 CA C9 C8"])),
        (10, with(10, &["C7 C4  CA C9"])),
        // Twelve lines and fourteen; what stands behind the end; a last line without its newline.
        (18, with(18, &[])),
        (18, with(10, &[])),
        (19, with(18, &[LINES[17], LINES[17]])),
        (19, whole() + "\n"),
        (19, whole() + " "),
        (19, whole() + "[Board \"2\"]\n"),
        (18, whole().trim_end().to_string()),
        (4, calls(&["Pass Pass Pass Pass"]).trim_end().to_string()),
    ]);
}

/// Places are cut at 1023, and the reading goes on: 5000 lines of calls are too many calls, one wrong line among them is outside the subset.
#[test]
fn many_lines() {
    let behind = |lines: usize, last: &str| format!("{}{last}\n", passes(lines));
    outside(&[(1021, behind(1017, "1N")), (1022, behind(1018, "1N")), (1023, behind(1019, "1N")), (1023, behind(1020, "1N"))]);
    outside(&[(1023, behind(4999, "")), (1023, passes(5000).trim_end().to_string()), (1023, behind(1022, "[Play \"N\"]"))]);
    refused(&[(33, 511, passes(5000)), (33, 511, passes(128)), (33, 511, behind(127, "Pass Pass Pass Pass"))]);
    refused(&[(8, 4, behind(127, "Pass Pass Pass")), (8, 4, passes(2))]);
}

/// A text that is cut is refused at the first line that is not whole, unless what is left is of the subset: here, after the line of calls, Play is missing.
#[test]
fn cut_at_every_byte() {
    let whole = whole();
    let after_calls = text(&LINES[..4]).len();
    for end in 0..whole.len() {
        let place = if end == after_calls { 5 } else { 1 + whole[..end].matches('\n').count() as u32 };
        outside(&[(place, whole[..end].to_string())]);
    }
    refused(&[(9, 4, calls(&["Pass Pass Pass 1NT"])), (9, 3, calls(&["1NT Pass Pass"])), (9, 1, calls(&["Pass"]))]);
}
