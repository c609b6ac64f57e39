//! The writer: a record's contents as plain numbers, checked in the judge's order, become its bytes. A number beyond its field counts as the code or
//! the number that it is.
use crate::auction::{Auction, Contract, NO_CALL};
use crate::contents::Contents;
use crate::deal::{self, Hands};
use crate::penalty::{Code, CHOICE, EXPOSED, MOST_CODES};
use crate::play::{Play, NO_CARD};
use crate::score;

mod packing;

pub use packing::length;

/// A writer as C sees it: contents, and the buffer for the record.
pub type Writer = fn(&Contents, &mut [u8]) -> u32;

pub(crate) type Refused = u32;

/// The most codes of calls and marks that a record can have.
const MOST_CALLS: usize = 511;

/// The greatest places of 10 and 15.
const MOST_CARDS: usize = 63;
const MOST_CLAIM: u32 = 15;

pub(crate) fn refused(number: u32, place: usize) -> Refused {
    number * 1024 + place as u32
}

/// Writes a record: the number of its bytes and the bytes over the front of the buffer, or a refusal and nothing written.
pub fn write(contents: &Contents, record: &mut [u8]) -> u32 {
    match check(contents) {
        Ok(()) => fill(contents, record),
        Err(number) => number,
    }
}

/// Writes a record that would be accepted, where there is room.
pub(crate) fn fill(contents: &Contents, record: &mut [u8]) -> u32 {
    let length = length(contents);
    match record.get_mut(..length) {
        Some(room) => packing::pack(contents, room),
        None => return refused(22, 0),
    }
    length as u32
}

/// Whether a record of these contents would be accepted.
fn check(c: &Contents) -> Result<(), Refused> {
    place(c.board, c.table)?;
    let hands = hands(&c.holders)?;
    let contract = calls(&c.calls, score::dealer(c.board as u8))?;
    let count = cards_in(&c.cards);
    match contract {
        Some(contract) => {
            cards(&c.cards, count, &hands, &contract)?;
            claim(c.marked, c.claim, count)
        }
        None if count > 0 => Err(refused(10, count.min(MOST_CARDS))),
        // A code with no card after it.
        None if !c.cards.is_empty() => Err(refused(26, 0)),
        None if c.marked != 0 => Err(refused(14, 0)),
        None => Ok(()),
    }
}

/// Board and table.
pub(crate) fn place(board: u32, table: u32) -> Result<(), Refused> {
    if !(1..=127).contains(&board) {
        return Err(refused(3, 0));
    }
    if !(1..=511).contains(&table) {
        return Err(refused(3, 1));
    }
    Ok(())
}

pub(crate) fn hands(holders: &[u8]) -> Result<Hands, Refused> {
    if holders.len() != 52 {
        return Err(refused(4, 4));
    }
    let mut hands = [0; 4];
    for (card, &holder) in holders.iter().enumerate() {
        *hands.get_mut(usize::from(holder)).ok_or(refused(4, 4))? |= 1 << card;
    }
    match deal::without_thirteen(&hands) {
        Some(seat) => Err(refused(4, seat as usize)),
        None => Ok(hands),
    }
}

/// The contract of an auction, nothing where it was passed out.
pub(crate) fn calls(codes: &[u8], dealer: u8) -> Result<Option<Contract>, Refused> {
    if codes.len() > MOST_CALLS {
        return Err(refused(33, MOST_CALLS));
    }
    let mut auction = Auction::new(dealer);
    for (k, &code) in codes.iter().enumerate() {
        if u64::from(code) >= NO_CALL {
            return Err(refused(5, k));
        }
        auction.call(u64::from(code)).map_err(|fault| refused(fault as u32, fault.place(k as u64) as usize))?;
    }
    if !auction.over() {
        return Err(refused(9, codes.len()));
    }
    Ok(auction.contract())
}

/// What stands in a list of cards: a number in a card's place, or a code's first number with the two behind it, fewer where the list ends.
#[derive(Clone, Copy, PartialEq, Eq, Debug)]
pub enum Item<'a> {
    Card(u8),
    Code(u8, &'a [u8]),
}

impl Item<'_> {
    /// How many numbers of the list it takes.
    pub fn numbers(&self) -> usize {
        match self {
            Item::Card(_) => 1,
            Item::Code(_, behind) => 1 + behind.len(),
        }
    }

    fn widths(&self) -> [u32; 3] {
        match self {
            Item::Card(_) => [6, 0, 0],
            Item::Code(first, _) if u64::from(*first) == EXPOSED => [6, 6, 1],
            Item::Code(..) => [6, 2, 2],
        }
    }
}

fn begins_code(number: u8) -> bool {
    u64::from(number) == EXPOSED || u64::from(number) == CHOICE
}

/// The items of a list of cards in their order.
pub fn items(list: &[u8]) -> impl Iterator<Item = Item<'_>> {
    let mut rest = list;
    std::iter::from_fn(move || {
        let (&first, behind) = rest.split_first()?;
        let taken = if begins_code(first) { behind.len().min(2) } else { 0 };
        rest = &behind[taken..];
        Some(if begins_code(first) { Item::Code(first, &behind[..taken]) } else { Item::Card(first) })
    })
}

/// Whether a list of cards has no codes, as most have: it can then be gone through number by number.
fn plain(list: &[u8]) -> bool {
    !list.iter().any(|&number| begins_code(number))
}

/// How many numbers of a list stand in a card's place.
pub fn cards_in(list: &[u8]) -> usize {
    if plain(list) {
        return list.len();
    }
    items(list).filter(|item| matches!(item, Item::Card(_))).count()
}

/// So many cards with the codes among them.
pub(crate) fn cards(list: &[u8], count: usize, hands: &Hands, contract: &Contract) -> Result<(), Refused> {
    if count > 52 {
        return Err(refused(10, count.min(MOST_CARDS)));
    }
    let mut play = Play::new(*hands, contract.strain, contract.declarer);
    if plain(list) {
        let (mut trick, cards) = (play.trick, &mut play.cards);
        return (0..).zip(list).try_for_each(|(place, &number)| {
            let card = card(number, place)?;
            if trick.card(cards, card) {
                Ok(())
            } else {
                Err(not_held(hands, trick.turn(), card, place))
            }
        });
    }
    let mut place = 0;
    for item in items(list) {
        match item {
            Item::Card(number) => {
                let card = card(number, place)?;
                if !play.card(card) {
                    return Err(not_held(hands, play.turn(), card, place));
                }
                place += 1;
            }
            Item::Code(first, behind) => code(&mut play, first, behind, place, place < count)?,
        }
    }
    Ok(())
}

#[inline]
fn card(number: u8, place: usize) -> Result<u64, Refused> {
    match u64::from(number) {
        NO_CARD.. => Err(refused(11, place)),
        card => Ok(card),
    }
}

/// Why a card is refused that the seat at turn does not hold: it has been played, or was dealt to another.
fn not_held(hands: &Hands, turn: u8, card: u64, place: usize) -> Refused {
    let own = hands[usize::from(turn)] >> card & 1 == 1;
    refused(if own { 23 } else { 12 }, place)
}

/// A code that has a card after it, or none.
fn code(play: &mut Play, first: u8, behind: &[u8], place: usize, card_after: bool) -> Result<(), Refused> {
    if play.penalty.codes() == MOST_CODES {
        return Err(refused(27, place));
    }
    let &[a, b] = behind else { return Err(refused(26, place)) };
    let (code, bit) = match u64::from(first) {
        EXPOSED => (Code::Exposed(u64::from(a), u64::from(b)), b),
        _ => (Code::Choice(u64::from(a), u64::from(b)), a),
    };
    if bit > 1 || !card_after {
        return Err(refused(26, place));
    }
    if play.code(code) {
        Ok(())
    } else {
        Err(refused(code.refusal(), place))
    }
}

fn claim(marked: u32, claim: u32, played: usize) -> Result<(), Refused> {
    if marked == 0 {
        return if played < 52 { Err(refused(13, played)) } else { Ok(()) };
    }
    if played == 0 || played == 52 {
        return Err(refused(14, played));
    }
    if claim > 13 - played as u32 / 4 {
        return Err(refused(15, claim.min(MOST_CLAIM) as usize));
    }
    Ok(())
}
