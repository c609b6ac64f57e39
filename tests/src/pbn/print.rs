//! The text of a game, and the game that a record's contents say from a seat of the Deal tag on.
use super::words::{call_word, card_word, rank_letter, seat_letter};
use super::{order, Game, Listed};
use crate::auction::{Auction, Contract, MARK};
use crate::contents::Contents;
use crate::score;

impl Game {
    /// The game of lawful contents, nothing where the notation cannot say them: a mark, a code among the cards, a claim.
    pub fn of(c: &Contents, first: u8) -> Option<Game> {
        let marked = c.calls.iter().any(|&code| u64::from(code) == MARK);
        if marked || c.marked != 0 || c.cards.iter().any(|&card| card > 51) {
            return None;
        }
        let dealer = score::dealer(c.board as u8);
        let play = match (contract(&c.calls, dealer), c.cards.len()) {
            (None, 0) => None,
            (Some(contract), 52) => Some(Listed { seat: (contract.declarer + 1) & 3, cards: order::listed(&c.cards, contract.strain) }),
            _ => return None,
        };
        Some(Game { board: c.board, first, holders: c.holders.clone(), auction: dealer, calls: c.calls.clone(), play })
    }

    /// The lines, their newlines left out.
    pub fn lines(&self) -> Vec<String> {
        let hands: Vec<String> = (0..4).map(|k| hand(&self.holders, (self.first + k) & 3)).collect();
        let mut lines = vec![
            format!("[Board \"{}\"]", self.board),
            format!("[Deal \"{}:{}\"]", seat_letter(self.first), hands.join(" ")),
            format!("[Auction \"{}\"]", seat_letter(self.auction)),
        ];
        lines.extend(rows(&self.calls, call_word));
        if let Some(play) = &self.play {
            lines.push(format!("[Play \"{}\"]", seat_letter(play.seat)));
            lines.extend(rows(&play.cards, card_word));
        }
        lines
    }

    pub fn text(&self) -> Vec<u8> {
        self.lines().iter().flat_map(|line| format!("{line}\n").into_bytes()).collect()
    }
}

/// The contract of a lawful auction.
fn contract(calls: &[u8], dealer: u8) -> Option<Contract> {
    let mut auction = Auction::new(dealer);
    for &code in calls {
        auction.call(u64::from(code)).expect("a lawful call");
    }
    auction.contract()
}

/// A seat's cards: spades, hearts, diamonds, clubs.
fn hand(holders: &[u8], seat: u8) -> String {
    let has = |suit: u8, rank: u8| holders[usize::from(13 * suit + rank)] == seat;
    [3, 2, 1, 0].map(|suit| (0..13).rev().filter(|&rank| has(suit, rank)).map(rank_letter).collect::<String>()).join(".")
}

/// Words, four to a line.
fn rows(codes: &[u8], word: fn(u8) -> String) -> impl Iterator<Item = String> + '_ {
    codes.chunks(4).map(move |row| row.iter().map(|&code| word(code)).collect::<Vec<_>>().join(" "))
}
