//! A record's contents as plain numbers, as they are given to a writer, and as they stand in a record's bytes.
mod unlawful;

use crate::parts::Parts;
use crate::penalty::{Code, CHOICE, EXPOSED};
use crate::reader::Reader;
use crate::writer::{items, Item};

pub use unlawful::{spoil_after, unlawful, CODES_BEYOND};

#[derive(Clone, PartialEq, Eq, Debug)]
pub struct Contents {
    pub board: u32,
    pub table: u32,
    pub holders: Vec<u8>,
    pub calls: Vec<u8>,
    /// Cards, and among them 52, card, bit for an exposure and 53, kind, suit for a choice.
    pub cards: Vec<u8>,
    /// 0 for no claim, anything else for a claim of `claim`.
    pub marked: u32,
    pub claim: u32,
}

fn bytes(numbers: &[u64]) -> Vec<u8> {
    numbers.iter().map(|&number| u8::try_from(number).expect("a code of a made record")).collect()
}

fn numbers(bytes: &[u8]) -> Vec<u64> {
    bytes.iter().map(|&byte| u64::from(byte)).collect()
}

/// So many fields of one width.
fn row(bits: &mut Reader, width: u32, count: u64) -> Option<Vec<u8>> {
    (0..count).map(|_| bits.take(width).map(|value| value as u8)).collect()
}

/// So many cards with the codes before them, by the layout alone.
fn cards(bits: &mut Reader, count: u64) -> Option<Vec<u8>> {
    let mut list = Vec::new();
    let mut left = count;
    while left > 0 {
        let number = bits.take(6)?;
        list.push(number as u8);
        match number {
            EXPOSED => list.extend([bits.take(6)? as u8, bits.take(1)? as u8]),
            CHOICE => list.extend([bits.take(2)? as u8, bits.take(2)? as u8]),
            _ => left -= 1,
        }
    }
    Some(list)
}

/// The cards and codes of a record as one list.
fn flat(parts: &Parts) -> Vec<u64> {
    let before = |place| parts.codes_before(place).flat_map(Code::numbers);
    let each = |place| before(place).chain(parts.cards.get(place).copied()).collect::<Vec<_>>();
    (0..=parts.cards.len()).flat_map(each).collect()
}

impl Contents {
    pub fn of(parts: &Parts) -> Contents {
        Contents {
            board: parts.board as u32,
            table: parts.table as u32,
            holders: bytes(&parts.deal),
            calls: bytes(&parts.calls),
            cards: bytes(&flat(parts)),
            marked: u32::from(parts.claim.is_some()),
            claim: parts.claim.unwrap_or(0) as u32,
        }
    }

    /// The contents of a record by the layout alone, nothing where a field is not whole or anything but zero padding follows the last one.
    pub fn read(record: &[u8]) -> Option<Contents> {
        let mut bits = Reader::new(record);
        let (board, table) = (bits.take(7)? as u32, bits.take(9)? as u32);
        let holders = row(&mut bits, 2, 52)?;
        let calls = bits.take(9)?;
        let calls = row(&mut bits, 6, calls)?;
        let count = bits.take(6)?;
        let cards = cards(&mut bits, count)?;
        let marked = bits.take(1)? as u32;
        let claim = if marked == 1 { bits.take(4)? as u32 } else { 0 };
        bits.only_padding_left().then_some(Contents { board, table, holders, calls, cards, marked, claim })
    }

    /// The parts of these contents, nothing where a number is too great for its field, there are not 52 holders, or a code is cut short or has no card
    /// after it.
    pub fn parts(&self) -> Option<Parts> {
        let fit = |list: &[u8], most: u8| list.iter().all(|&number| number <= most);
        let places = self.board <= 127 && self.table <= 511 && self.holders.len() == 52 && fit(&self.holders, 3);
        let (cards, codes) = apart(&self.cards)?;
        if !places || self.calls.len() > 511 || !fit(&self.calls, 63) || cards.len() > 63 || (self.marked != 0 && self.claim > 15) {
            return None;
        }
        let claim = (self.marked != 0).then_some(u64::from(self.claim));
        let (board, table) = (u64::from(self.board), u64::from(self.table));
        let (deal, calls) = (numbers(&self.holders), numbers(&self.calls));
        let mut parts = Parts { board, table, deal, calls, cards, codes, claim, ..Parts::default() };
        parts.count();
        Some(parts)
    }
}

/// The cards and the codes of a list, nothing where a number does not fit its field or a code has not its place before a card.
fn apart(list: &[u8]) -> Option<(Vec<u64>, Vec<(usize, Code)>)> {
    let (mut cards, mut codes) = (Vec::new(), Vec::new());
    for item in items(list) {
        match item {
            Item::Card(card @ 0..=63) => cards.push(u64::from(card)),
            Item::Code(first, &[a, b]) => {
                let [a, b] = [a, b].map(u64::from);
                let code = if u64::from(first) == EXPOSED { Code::Exposed(a, b) } else { Code::Choice(a, b) };
                let fits = code.numbers().into_iter().zip(code.widths()).all(|(number, width)| number >> width == 0);
                codes.push((cards.len(), fits.then_some(code)?));
            }
            _ => return None,
        }
    }
    codes.iter().all(|&(place, _)| place < cards.len()).then_some((cards, codes))
}
