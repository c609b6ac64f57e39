//! Games of the subset that say something wrong, a section each in the order in which a reader checks them.
use crate::contents::Contents;
use crate::damage;
use crate::making::Made;
use crate::pbn::{order, Game, Listed, OUTSIDE};
use crate::random::Random;

/// A game on its way to a text, from a lawful record.
pub struct Said<'a> {
    pub made: &'a Made,
    pub game: Game,
    pub table: u32,
}

/// One way to say something wrong: the section that it is in, its name, and what does it. It gives the number that a reader has to return, nothing where
/// this game cannot be made wrong so.
pub struct Kind {
    pub section: usize,
    pub name: &'static str,
    spoil: fn(&mut Random, &mut Said) -> Option<u32>,
}

/// Board, table, dealer, deal, calls, the Play tag, cards.
pub const SECTIONS: usize = 7;

pub const KINDS: [Kind; 18] = [
    Kind { section: 0, name: "03 a board over 127", spoil: board_over },
    Kind { section: 1, name: "03 table 0", spoil: table_0 },
    Kind { section: 1, name: "03 a table over 511", spoil: table_over },
    Kind { section: 2, name: "32 another dealer", spoil: another_dealer },
    Kind { section: 3, name: "04 a card in another hand", spoil: card_moved },
    Kind { section: 3, name: "04 all cards in one hand", spoil: one_hand },
    Kind { section: 4, name: "33 over 511 calls", spoil: over_511 },
    Kind { section: 4, name: "06 a bid not above", spoil: |random, said| calls_damaged(random, said, 6) },
    Kind { section: 4, name: "07 a double not allowed", spoil: |random, said| calls_damaged(random, said, 7) },
    Kind { section: 4, name: "08 calls after the end", spoil: |random, said| calls_damaged(random, said, 8) },
    Kind { section: 4, name: "09 calls that stop before the end", spoil: |random, said| calls_damaged(random, said, 9) },
    Kind { section: 4, name: "09 the text cut after a line of calls", spoil: cut_in_calls },
    Kind { section: 5, name: "32 another leader", spoil: another_leader },
    Kind { section: 5, name: "32 no Play tag with a contract", spoil: no_play },
    Kind { section: 5, name: "32 a Play tag when passed out", spoil: play_when_passed_out },
    Kind { section: 6, name: "12 a card of another hand", spoil: |random, said| cards_damaged(random, said, 12) },
    Kind { section: 6, name: "23 a card already played", spoil: |random, said| cards_damaged(random, said, 23) },
    Kind { section: 6, name: "12 or 23 one card twice", spoil: card_twice },
];

impl<'a> Said<'a> {
    pub fn of(made: &'a Made, first: u8) -> Said<'a> {
        let game = Game::of(&Contents::of(&made.parts), first).expect("a record that the notation can say");
        Said { made, game, table: made.parts.table as u32 }
    }

    /// Says something wrong; the number that a reader has to return if nothing that it checks before is wrong.
    pub fn spoil(&mut self, random: &mut Random, kind: &Kind) -> Option<u32> {
        (kind.spoil)(random, self)
    }

    /// Takes the calls and cards of the record after damage to it of a kind that the judge's number names.
    fn damaged(&self, random: &mut Random, kind: u32) -> Option<(Contents, u32)> {
        let damaged = damage::damaged(random, self.made, kind)?;
        Some((Contents::read(&damaged.bytes)?, damaged.number?))
    }
}

fn board_over(random: &mut Random, said: &mut Said) -> Option<u32> {
    let any = random.between(128, 999) as u32;
    said.game.board = *random.pick(&[any, 128, 129, 255, 256, 257, 511, 512, 513, 999]);
    Some(3 * 1024)
}

fn table_0(_: &mut Random, said: &mut Said) -> Option<u32> {
    said.table = 0;
    Some(3 * 1024 + 1)
}

fn table_over(random: &mut Random, said: &mut Said) -> Option<u32> {
    let any = random.word() as u32 | 1 << 9;
    said.table = *random.pick(&[512, 513, 767, 999, 1000, 1023, 1024, 1 << 16, 1 << 31, u32::MAX, any]);
    Some(3 * 1024 + 1)
}

/// Another seat than this one.
fn another(random: &mut Random, seat: u8) -> u8 {
    (seat + random.between(1, 3) as u8) & 3
}

fn another_dealer(random: &mut Random, said: &mut Said) -> Option<u32> {
    said.game.auction = another(random, said.game.auction);
    Some(OUTSIDE * 1024 + 3)
}

/// A card goes to another seat: of the two that have a wrong number, the first of N, E, S, W is named, wherever the Deal tag starts.
fn card_moved(random: &mut Random, said: &mut Said) -> Option<u32> {
    let holder = &mut said.game.holders[random.below(52)];
    let before = *holder;
    *holder = another(random, before);
    Some(4 * 1024 + u32::from(before.min(*holder)))
}

fn one_hand(random: &mut Random, said: &mut Said) -> Option<u32> {
    said.game.holders.fill(random.below(4) as u8);
    Some(4 * 1024)
}

fn over_511(random: &mut Random, said: &mut Said) -> Option<u32> {
    let count = *random.pick(&[512, 512, 513, 514, 515, 516, 600, 1023, 1024]);
    more_calls(random, said, count)
}

/// So many calls, any behind those of the game.
pub fn more_calls(random: &mut Random, said: &mut Said, count: usize) -> Option<u32> {
    let calls = &mut said.game.calls;
    while calls.len() < count {
        calls.push(random.below(38) as u8);
    }
    Some(33 * 1024 + 511)
}

fn calls_damaged(random: &mut Random, said: &mut Said, kind: u32) -> Option<u32> {
    let (damaged, number) = said.damaged(random, kind).filter(|(damaged, _)| !damaged.calls.is_empty())?;
    // A mark can stand only behind the end here, and the notation has none.
    said.game.calls = damaged.calls.into_iter().map(|code| code.min(37)).collect();
    Some(number)
}

/// Some whole lines of calls, and nothing behind them.
fn cut_in_calls(random: &mut Random, said: &mut Said) -> Option<u32> {
    let lines = (said.game.calls.len() - 1) / 4;
    if lines == 0 {
        return None;
    }
    let count = 4 * random.between(1, lines);
    said.game.calls.truncate(count);
    said.game.play = None;
    Some(9 * 1024 + count as u32)
}

fn another_leader(random: &mut Random, said: &mut Said) -> Option<u32> {
    let line = said.game.line_after_calls();
    let play = said.game.play.as_mut()?;
    play.seat = another(random, play.seat);
    Some(OUTSIDE * 1024 + line as u32)
}

fn no_play(_: &mut Random, said: &mut Said) -> Option<u32> {
    said.game.play.take()?;
    Some(OUTSIDE * 1024 + said.game.line_after_calls() as u32)
}

fn play_when_passed_out(random: &mut Random, said: &mut Said) -> Option<u32> {
    if said.made.contract.is_some() {
        return None;
    }
    let cards = (0..52).map(|_| random.below(52) as u8).collect();
    said.game.play = Some(Listed { seat: random.below(4) as u8, cards });
    Some(OUTSIDE * 1024 + said.game.line_after_calls() as u32)
}

fn cards_damaged(random: &mut Random, said: &mut Said, kind: u32) -> Option<u32> {
    let strain = said.made.contract?.strain;
    let (damaged, number) = said.damaged(random, kind)?;
    said.game.play.as_mut()?.cards = order::listed(&damaged.cards, strain);
    Some(number)
}

/// One of the 52 plays is of a card that was played before: by the same seat 23, by another 12.
fn card_twice(random: &mut Random, said: &mut Said) -> Option<u32> {
    let strain = said.made.contract?.strain;
    let place = random.between(1, 51);
    let card = said.made.parts.cards[random.below(place)];
    let turn = said.made.position(place)?.turn();
    let mut cards = Contents::of(&said.made.parts).cards;
    cards[place] = card as u8;
    said.game.play.as_mut()?.cards = order::listed(&cards, strain);
    let number = if said.made.parts.deal[card as usize] == u64::from(turn) { 23 } else { 12 };
    Some(number * 1024 + place as u32)
}
