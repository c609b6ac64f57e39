//! A game in Portable Bridge Notation, read: the lines of the subset, checked in the order of docs/RULES.md, 15, become a record's bytes.
use crate::contents::Contents;
use crate::score;
use crate::writer::{self, refused, Refused};

mod by_definition;
mod lines;
pub mod order;
mod print;
mod program;
pub mod words;

pub use by_definition::place_by_definition;
pub use lines::game;
pub use program::{output, MOST_BYTES};

/// A reader as C sees it: the text, the table, and the buffer for the record.
pub type PbnReader = fn(&[u8], u32, &mut [u8]) -> u32;

/// 32: a text outside the subset.
pub const OUTSIDE: u32 = 32;
/// The greatest place of 32 is that of this line.
pub const LAST_LINE: usize = 1023;
/// The lines of the three first tags; calls begin behind them.
const AUCTION_LINE: usize = 3;

/// What stands in a text of the subset.
#[derive(Clone, PartialEq, Eq, Debug)]
pub struct Game {
    pub board: u32,
    /// The seat that the Deal tag names.
    pub first: u8,
    /// The seat that has each card.
    pub holders: Vec<u8>,
    /// The seat that the Auction tag names.
    pub auction: u8,
    pub calls: Vec<u8>,
    /// The Play tag with its cards, where there is one.
    pub play: Option<Listed>,
}

#[derive(Clone, PartialEq, Eq, Debug)]
pub struct Listed {
    /// The seat that the Play tag names: the first column has its cards.
    pub seat: u8,
    /// 52 cards, along the lines.
    pub cards: Vec<u8>,
}

/// Reads a text: the number of the record's bytes and the bytes over the front of the buffer, or a refusal and nothing written.
pub fn read(text: &[u8], table: u32, record: &mut [u8]) -> u32 {
    let contents = game(text).map_err(|line| refused(OUTSIDE, line)).and_then(|game| checked(&game, table));
    match contents {
        Ok(contents) => writer::fill(&contents, record),
        Err(number) => number,
    }
}

/// The contents of a record that would be accepted.
fn checked(game: &Game, table: u32) -> Result<Contents, Refused> {
    writer::place(game.board, table)?;
    let dealer = score::dealer(game.board as u8);
    if game.auction != dealer {
        return Err(refused(OUTSIDE, AUCTION_LINE));
    }
    let hands = writer::hands(&game.holders)?;
    let contract = writer::calls(&game.calls, dealer)?;
    match (contract, &game.play) {
        (None, None) => Ok(game.contents(table, 4)),
        (Some(contract), Some(play)) if play.seat == (contract.declarer + 1) & 3 => {
            let contents = game.contents(table, contract.strain);
            writer::cards(&contents.cards, contents.cards.len(), &hands, &contract)?;
            Ok(contents)
        }
        _ => Err(refused(OUTSIDE, game.line_after_calls())),
    }
}

impl Game {
    /// The contents that the game says for a table, with the cards in order of play for a contract in this strain.
    pub fn contents(&self, table: u32, strain: u8) -> Contents {
        let cards = self.play.as_ref().map_or(Vec::new(), |play| order::played(&play.cards, strain));
        Contents { board: self.board, table, holders: self.holders.clone(), calls: self.calls.clone(), cards, marked: 0, claim: 0 }
    }

    /// The line where the Play tag stands, or should.
    pub fn line_after_calls(&self) -> usize {
        AUCTION_LINE + self.calls.len().div_ceil(4) + 1
    }
}
