//! The subset, line by line: what may stand in the next line, and what a line says.
use super::{words, Game, Listed, LAST_LINE};

/// A seat that no line has named.
const NOBODY: u8 = 4;
/// Lines of cards.
const TRICKS: usize = 13;

/// What may come next.
enum Next {
    Board,
    Deal,
    Auction,
    FirstCalls,
    /// Every line of calls so far has four.
    MoreCalls,
    /// The last line of calls was a short one.
    CallsOver,
    /// A line of cards; so many have come.
    Cards(usize),
    Nothing,
}

/// A text up to some line.
struct Reading {
    next: Next,
    game: Game,
}

/// What stands in a text; where it is none of the subset, the line up to which no text of the subset agrees.
pub fn game(text: &[u8]) -> Result<Game, usize> {
    let game = Game { board: 0, first: 0, holders: Vec::new(), auction: 0, calls: Vec::new(), play: None };
    let mut reading = Reading { next: Next::Board, game };
    let mut lines = 0;
    for line in text.split_inclusive(|&byte| byte == b'\n') {
        lines += 1;
        if line.strip_suffix(b"\n").and_then(|line| reading.line(line)).is_none() {
            return Err(lines.min(LAST_LINE));
        }
    }
    match reading.next {
        Next::MoreCalls | Next::CallsOver | Next::Nothing => Ok(reading.game),
        _ => Err((lines + 1).min(LAST_LINE)),
    }
}

impl Reading {
    /// Takes a whole line, its newline left out; nothing where it cannot come next.
    fn line(&mut self, line: &[u8]) -> Option<()> {
        match self.next {
            Next::Board => {
                self.game.board = number(tag(line, b"Board")?)?;
                self.next = Next::Deal;
            }
            Next::Deal => {
                (self.game.first, self.game.holders) = deal(tag(line, b"Deal")?)?;
                self.next = Next::Auction;
            }
            Next::Auction => {
                self.game.auction = seat(tag(line, b"Auction")?)?;
                self.next = Next::FirstCalls;
            }
            Next::FirstCalls => self.calls(line)?,
            Next::MoreCalls => self.calls(line).or_else(|| self.play(line))?,
            Next::CallsOver => self.play(line)?,
            Next::Cards(lines) => self.cards(line, lines + 1)?,
            Next::Nothing => return None,
        }
        Some(())
    }

    fn calls(&mut self, line: &[u8]) -> Option<()> {
        let calls = each(line, words::call)?;
        if calls.len() > 4 {
            return None;
        }
        self.next = if calls.len() == 4 { Next::MoreCalls } else { Next::CallsOver };
        self.game.calls.extend(calls);
        Some(())
    }

    fn play(&mut self, line: &[u8]) -> Option<()> {
        let seat = seat(tag(line, b"Play")?)?;
        self.game.play = Some(Listed { seat, cards: Vec::new() });
        self.next = Next::Cards(0);
        Some(())
    }

    /// The line of cards with this number, from 1.
    fn cards(&mut self, line: &[u8], number: usize) -> Option<()> {
        let cards = each(line, words::card)?;
        if cards.len() != 4 {
            return None;
        }
        self.game.play.as_mut()?.cards.extend(cards);
        self.next = if number < TRICKS { Next::Cards(number) } else { Next::Nothing };
        Some(())
    }
}

/// What stands in a tag's quotation marks.
fn tag<'a>(line: &'a [u8], name: &[u8]) -> Option<&'a [u8]> {
    line.strip_prefix(b"[")?.strip_prefix(name)?.strip_prefix(b" \"")?.strip_suffix(b"\"]")
}

/// A number from 1 to 999 without a zero in front.
pub(super) fn number(digits: &[u8]) -> Option<u32> {
    let right = matches!(digits, [b'1'..=b'9'] | [b'1'..=b'9', b'0'..=b'9'] | [b'1'..=b'9', b'0'..=b'9', b'0'..=b'9']);
    right.then(|| digits.iter().fold(0, |number, digit| 10 * number + u32::from(digit - b'0')))
}

fn seat(letters: &[u8]) -> Option<u8> {
    match *letters {
        [letter] => words::seat(letter),
        _ => None,
    }
}

/// The words of a line, one space between, each by what it means.
fn each(line: &[u8], meaning: fn(&[u8]) -> Option<u8>) -> Option<Vec<u8>> {
    line.split(|&byte| byte == b' ').map(meaning).collect()
}

/// The seat named and the holder of each card.
fn deal(value: &[u8]) -> Option<(u8, Vec<u8>)> {
    let (&letter, hands) = value.split_first()?;
    let first = words::seat(letter)?;
    let hands: Vec<&[u8]> = hands.strip_prefix(b":")?.split(|&byte| byte == b' ').collect();
    if hands.len() != 4 {
        return None;
    }
    let mut holders = vec![NOBODY; 52];
    for (seat, hand) in (first..).zip(hands) {
        give(&mut holders, seat & 3, hand)?;
    }
    (!holders.contains(&NOBODY)).then_some((first, holders))
}

/// Gives a seat the cards of its hand, which nobody has yet.
fn give(holders: &mut [u8], seat: u8, hand: &[u8]) -> Option<()> {
    let suits: Vec<&[u8]> = hand.split(|&byte| byte == b'.').collect();
    if suits.len() != 4 {
        return None;
    }
    for (suit, letters) in [3, 2, 1, 0].into_iter().zip(suits) {
        let ranks: Vec<u8> = letters.iter().map(|&letter| words::rank(letter)).collect::<Option<_>>()?;
        if ranks.windows(2).any(|pair| pair[0] <= pair[1]) {
            return None;
        }
        for rank in ranks {
            let holder = &mut holders[13 * suit + usize::from(rank)];
            if *holder != NOBODY {
                return None;
            }
            *holder = seat;
        }
    }
    Some(())
}
