//! The place of 32 a second time, by its definition: the most whole lines with which some text of the subset begins. Whether a text is of the subset is
//! found by printing: what it seems to say, taken with no regard to its form, has to print as this text.
use super::{words, Game, Listed, LAST_LINE};

/// A text of the subset. What completes some lines to a text of the subset can always be exchanged for this text's last lines, however many are needed: any
/// tag, calls or cards may stand there.
const SAMPLE: &str = "[Board \"1\"]
[Deal \"N:...AKQJT98765432 ..AKQJT98765432. .AKQJT98765432.. AKQJT98765432...\"]
[Auction \"N\"]
1C Pass Pass Pass
[Play \"E\"]
D2 H2 S2 C2
D3 H3 S3 C3
D4 H4 S4 C4
D5 H5 S5 C5
D6 H6 S6 C6
D7 H7 S7 C7
D8 H8 S8 C8
D9 H9 S9 C9
DT HT ST CT
DJ HJ SJ CJ
DQ HQ SQ CQ
DK HK SK CK
DA HA SA CA
";

/// The place of 32, nothing where the text is of the subset.
pub fn place_by_definition(text: &[u8]) -> Option<usize> {
    if of_subset(text) {
        return None;
    }
    let whole: Vec<&[u8]> = text.split_inclusive(|&byte| byte == b'\n').filter(|line| line.ends_with(b"\n")).collect();
    let begins = (1..=whole.len()).take_while(|&count| some_text_begins(&whole[..count].concat())).count();
    Some((begins + 1).min(LAST_LINE))
}

fn some_text_begins(lines: &[u8]) -> bool {
    let mut ends = SAMPLE.split_inclusive('\n').rev().scan(String::new(), |end, line| {
        end.insert_str(0, line);
        Some(end.clone())
    });
    of_subset(lines) || ends.any(|end| of_subset(&[lines, end.as_bytes()].concat()))
}

fn of_subset(text: &[u8]) -> bool {
    seems(text).is_some_and(|game| game.text() == text)
}

/// What a text seems to say.
fn seems(text: &[u8]) -> Option<Game> {
    let mut lines = text.split(|&byte| byte == b'\n');
    let board =
        lines.next()?.iter().filter(|byte| byte.is_ascii_digit()).take(3).fold(0, |number, digit| 10 * number + u32::from(digit - b'0'));
    let (first, holders) = deal(lines.next()?)?;
    let auction = words::seat(*lines.next()?.get(10)?)?;
    let mut game = Game { board, first, holders, auction, calls: Vec::new(), play: None };
    for line in lines {
        let words = line.split(|&byte| byte == b' ').filter(|word| !word.is_empty());
        match &mut game.play {
            Some(play) => play.cards.extend(words.filter_map(words::card)),
            None if line.starts_with(b"[Play") => game.play = Some(Listed { seat: words::seat(*line.get(7)?)?, cards: Vec::new() }),
            None => game.calls.extend(words.filter_map(words::call)),
        }
    }
    let cards = game.play.as_ref().map_or(52, |play| play.cards.len());
    ((1..=999).contains(&board) && !game.calls.is_empty() && cards == 52).then_some(game)
}

/// The seat and the holders that a Deal line seems to say; a card that it does not name has none.
fn deal(line: &[u8]) -> Option<(u8, Vec<u8>)> {
    let (&letter, hands) = line.get(7..)?.split_first()?;
    let first = words::seat(letter)?;
    let mut holders = vec![4; 52];
    for (seat, hand) in (first..).zip(hands.split(|&byte| byte == b' ').take(4)) {
        for (suit, ranks) in [3, 2, 1, 0].into_iter().zip(hand.split(|&byte| byte == b'.')) {
            for rank in ranks.iter().filter_map(|&letter| words::rank(letter)) {
                holders[13 * suit + usize::from(rank)] = seat & 3;
            }
        }
    }
    (!holders.contains(&4)).then_some((first, holders))
}
