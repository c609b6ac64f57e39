//! The words of Portable Bridge Notation for seats, calls and cards.

pub const SEATS: &[u8] = b"NESW";
/// The suits in the order of their numbers.
const SUITS: &[u8] = b"CDHS";
const RANKS: &[u8] = b"23456789TJQKA";
const STRAINS: [&[u8]; 5] = [b"C", b"D", b"H", b"S", b"NT"];

fn place(among: &[u8], letter: u8) -> Option<u8> {
    among.iter().position(|&other| other == letter).map(|place| place as u8)
}

/// The seat of a letter.
pub fn seat(letter: u8) -> Option<u8> {
    place(SEATS, letter)
}

/// The rank of a letter, 0 for the two.
pub fn rank(letter: u8) -> Option<u8> {
    place(RANKS, letter)
}

/// The letter of a rank.
pub fn rank_letter(rank: u8) -> char {
    char::from(RANKS[usize::from(rank)])
}

/// The code of a call.
pub fn call(word: &[u8]) -> Option<u8> {
    match word {
        b"Pass" => Some(0),
        b"X" => Some(1),
        b"XX" => Some(2),
        [level @ b'1'..=b'7', strain @ ..] => {
            let strain = STRAINS.iter().position(|&other| other == strain)?;
            Some(3 + 5 * (level - b'1') + strain as u8)
        }
        _ => None,
    }
}

/// The number of a card.
pub fn card(word: &[u8]) -> Option<u8> {
    match *word {
        [suit, letter] => Some(13 * place(SUITS, suit)? + rank(letter)?),
        _ => None,
    }
}

/// The word of a call's code, from 0 to 37.
pub fn call_word(code: u8) -> String {
    match code {
        0 => "Pass".to_string(),
        1 => "X".to_string(),
        2 => "XX".to_string(),
        _ => format!("{}{}", (code - 3) / 5 + 1, String::from_utf8_lossy(STRAINS[usize::from((code - 3) % 5)])),
    }
}

/// The word of a card.
pub fn card_word(card: u8) -> String {
    format!("{}{}", char::from(SUITS[usize::from(card / 13)]), rank_letter(card % 13))
}

/// The letter of a seat.
pub fn seat_letter(seat: u8) -> char {
    char::from(SEATS[usize::from(seat)])
}
