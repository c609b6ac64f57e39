//! The game's words for the parts of a record.
use crate::parts::Parts;
use crate::penalty::{Code, FORBID, REQUIRE};

const SEATS: &str = "NESW";
const SUITS: &str = "CDHS";
const RANKS: &str = "23456789TJQKA";
const STRAINS: [&str; 5] = ["C", "D", "H", "S", "NT"];

/// A deal in which no card has a holder yet.
pub const NOBODY: u64 = 4;

pub fn number(word: &str) -> Result<u64, String> {
    word.parse().map_err(|_| format!("not a number: {word}"))
}

fn place(among: &str, word: &str) -> Result<u64, String> {
    match among.find(word) {
        Some(place) if word.len() == 1 => Ok(place as u64),
        _ => Err(format!("{word} is none of {among}")),
    }
}

/// A seat's letter.
pub fn seat(word: &str) -> Result<u64, String> {
    place(SEATS, word)
}

/// A suit's letter.
pub fn suit(word: &str) -> Result<u64, String> {
    place(SUITS, word)
}

/// `SA` for the ace of spades.
pub fn card(word: &str) -> Result<u64, String> {
    let (suit, rank) = word.split_at_checked(1).ok_or(format!("no such card: {word}"))?;
    Ok(13 * place(SUITS, suit)? + place(RANKS, rank)?)
}

/// Gives a seat its cards, `AKQ.876.543.JT92`: spades, hearts, diamonds, clubs.
pub fn hand(deal: &mut [u64], seat: u64, cards: &str) -> Result<(), String> {
    for (k, ranks) in cards.split('.').enumerate() {
        for rank in ranks.split("").filter(|rank| !rank.is_empty()) {
            let card = 13 * (3 - k) + place(RANKS, rank)? as usize;
            if deal[card] != NOBODY {
                return Err(format!("the {rank} in hand {seat} is in two hands"));
            }
            deal[card] = seat;
        }
    }
    Ok(())
}

/// `P`, `X`, `XX`, a bid such as `3NT`, or `M`, the mark of an insufficient bid that was accepted.
pub fn call(word: &str) -> Result<u64, String> {
    match word {
        "P" => Ok(0),
        "X" => Ok(1),
        "XX" => Ok(2),
        "M" => Ok(38),
        _ => {
            let (level, strain) = word.split_at_checked(1).ok_or(format!("no such call: {word}"))?;
            let strain = STRAINS.iter().position(|&s| s == strain).ok_or(format!("no such call: {word}"))?;
            Ok(3 + 5 * (number(level)? - 1) + strain as u64)
        }
    }
}

/// A code before a card: `?D5` for a card exposed by accident, `!D5` deliberately, `+D` for a suit required, `-D` for one forbidden.
pub fn code(word: &str) -> Result<Option<Code>, String> {
    Ok(match word.split_at_checked(1) {
        Some(("?", exposed)) => Some(Code::Exposed(card(exposed)?, 0)),
        Some(("!", exposed)) => Some(Code::Exposed(card(exposed)?, 1)),
        Some(("+", named)) => Some(Code::Choice(REQUIRE, suit(named)?)),
        Some(("-", named)) => Some(Code::Choice(FORBID, suit(named)?)),
        _ => None,
    })
}

/// Adds cards and the codes before them, a word each.
pub fn plays<'a>(parts: &mut Parts, words: impl IntoIterator<Item = &'a str>) -> Result<(), String> {
    for word in words {
        match code(word)? {
            Some(code) => parts.codes.push((parts.cards.len(), code)),
            None => parts.cards.push(card(word)?),
        }
    }
    Ok(())
}
