//! Records that the Laws allow, of all shapes.
mod calls;
mod cards;
mod penalties;
pub mod squeezes;

use crate::auction::{Auction, Contract};
use crate::deal::Hands;
use crate::parts::Parts;
use crate::penalty::MOST_CODES;
use crate::play::Play;
use crate::random::Random;
use crate::score;

/// A lawful record, with what was known when it was made.
#[derive(Clone, Debug)]
pub struct Made {
    pub parts: Parts,
    pub contract: Option<Contract>,
    pub hands: Hands,
}

impl Made {
    pub fn dealer(&self) -> u8 {
        score::dealer(self.parts.board as u8)
    }

    fn new(board: u64, table: u64, deal: Vec<u64>, calls: Vec<u64>) -> Made {
        let mut auction = Auction::new(score::dealer(board as u8));
        for &call in &calls {
            auction.call(call).expect("a lawful call");
        }
        assert!(auction.over(), "an auction that is over");
        let mut hands = [0; 4];
        for (card, &holder) in deal.iter().enumerate() {
            hands[holder as usize] |= 1 << card;
        }
        let mut parts = Parts { board, table, deal, calls, ..Parts::default() };
        parts.count();
        Made { parts, contract: auction.contract(), hands }
    }

    /// The position before the codes that stand before card k; nothing where the board is passed out.
    pub fn position(&self, k: usize) -> Option<Play> {
        let contract = self.contract?;
        let mut play = Play::new(self.hands, contract.strain, contract.declarer);
        (0..k).for_each(|place| self.step(&mut play, place));
        Some(play)
    }

    /// Takes card k with the codes before it.
    pub fn step(&self, play: &mut Play, k: usize) {
        for code in self.parts.codes_before(k) {
            assert!(play.code(code), "a lawful code");
        }
        assert!(play.card(self.parts.cards[k]), "a lawful card");
    }
}

/// A lawful record of a random shape.
pub fn lawful(random: &mut Random) -> Made {
    if random.percent(4) {
        return passed_out(random);
    }
    if random.percent(2) {
        return most_revokes(random);
    }
    let (board, table) = place(random);
    let calls = auction(random, score::dealer(board as u8));
    let mut made = Made::new(board, table, cards::deal(random), calls);
    cards::fill(random, &mut made);
    made
}

/// A lawful record with penalty cards: exposures and choices among the plays.
pub fn with_codes(random: &mut Random) -> Made {
    if random.percent(2) {
        return most_revokes_and_failures(random);
    }
    let (board, table) = place(random);
    let calls = auction(random, score::dealer(board as u8));
    let plain = Made::new(board, table, cards::deal(random), calls);
    loop {
        let mut made = plain.clone();
        penalties::fill(random, &mut made);
        if !made.parts.codes.is_empty() {
            return made;
        }
    }
}

/// The same with as many codes as a record can have.
pub fn with_most_codes(random: &mut Random) -> Made {
    loop {
        let made = with_codes(random);
        if made.parts.codes.len() == MOST_CODES {
            return made;
        }
    }
}

/// A record of a short auction and all 52 cards, with penalty cards.
pub fn full_with_codes(random: &mut Random) -> Made {
    let (board, table) = place(random);
    let calls = calls::short(score::dealer(board as u8), random.below(4) as u8, random.between(3, 37) as u64, 0);
    let mut made = Made::new(board, table, cards::deal(random), calls);
    penalties::fill_up_to(random, &mut made, 52);
    made
}

/// An auction that reaches a contract.
fn auction(random: &mut Random, dealer: u8) -> Vec<u64> {
    let target = random.between(3, 37) as u64;
    let doubling = random.below(3) as u8;
    match random.below(12) {
        10..=11 => {
            let most = *random.pick(&[20, 60, 511]);
            let count = random.between(6, most);
            calls::marked(random, dealer, count)
        }
        0..=2 => calls::short(dealer, random.below(4) as u8, target, doubling),
        3..=4 => {
            let count = random.between(4, 319);
            calls::of_length(random, count)
        }
        _ => calls::towards(random, dealer, target, doubling),
    }
}

/// A record of a short auction, a claim after so many tricks, and no card after it.
pub fn with_claim_after(random: &mut Random, tricks: usize) -> Made {
    let (board, table) = place(random);
    let calls = calls::short(score::dealer(board as u8), random.below(4) as u8, random.between(3, 37) as u64, 0);
    let mut made = Made::new(board, table, cards::deal(random), calls);
    cards::fill_up_to(random, &mut made, 4 * tricks);
    made
}

/// A record of an auction without a mark of exactly so many calls, from 4 to 319, and all 52 cards.
pub fn with_calls(random: &mut Random, count: usize) -> Made {
    let (board, table) = place(random);
    let calls = calls::of_length(random, count);
    let mut made = Made::new(board, table, cards::deal(random), calls);
    cards::fill_up_to(random, &mut made, 52);
    made
}

/// A record without a mark and without a claim: all 52 cards of a contract, or four passes.
pub fn played_out(random: &mut Random) -> Made {
    match random.below(12) {
        0 => return passed_out(random),
        1 => {
            let made = most_revokes(random);
            if made.parts.claim.is_none() {
                return made;
            }
        }
        2..=3 => {
            let any = random.between(4, 319);
            let count = *random.pick(&[any, any, any, 4, 319]);
            return with_calls(random, count);
        }
        _ => {}
    }
    let (board, table) = place(random);
    let (dealer, target, doubling) = (score::dealer(board as u8), random.between(3, 37) as u64, random.below(3) as u8);
    let calls = match random.below(3) {
        0 => calls::short(dealer, random.below(4) as u8, target, doubling),
        _ => calls::towards(random, dealer, target, doubling),
    };
    let mut made = Made::new(board, table, cards::deal(random), calls);
    cards::fill_up_to(random, &mut made, 52);
    made
}

fn place(random: &mut Random) -> (u64, u64) {
    (random.between(1, 127) as u64, random.between(1, 511) as u64)
}

/// A record of four passes.
pub fn passed_out(random: &mut Random) -> Made {
    let (board, table) = place(random);
    Made::new(board, table, cards::deal(random), vec![0; 4])
}

/// A record with 36 revokes, or with those before a claim.
fn most_revokes(random: &mut Random) -> Made {
    let (board, table) = place(random);
    let leader = random.below(4) as u8;
    let trumps = random.percent(50);
    let (long, deal, cards) = cards::most_revokes(random, leader, trumps);
    let strain = if trumps { long } else { 4 };
    let bid = 3 + 5 * random.below(7) as u64 + strain;
    let calls = calls::short(score::dealer(board as u8), (leader + 3) & 3, bid, random.below(3) as u8);
    let mut made = Made::new(board, table, deal, calls);
    made.parts.cards = cards;
    if random.percent(30) {
        let tricks = random.between(1, 12);
        made.parts.keep_cards(4 * tricks);
        made.parts.claim = Some(random.between(0, 13 - tricks) as u64);
    }
    made.parts.count();
    made
}

/// A record with 48 revokes and 24 plays against Law 50D1, or with those before a claim.
fn most_revokes_and_failures(random: &mut Random) -> Made {
    let (board, table) = place(random);
    let leader = random.below(4) as u8;
    let (deal, cards, codes) = penalties::most_revokes_and_failures(random, leader);
    let notrump = 7 + 5 * random.below(7) as u64;
    let calls = calls::short(score::dealer(board as u8), (leader + 3) & 3, notrump, random.below(3) as u8);
    let mut made = Made::new(board, table, deal, calls);
    (made.parts.cards, made.parts.codes) = (cards, codes);
    if random.percent(30) {
        let count = random.between(1, 51);
        made.parts.keep_cards(count);
        made.parts.claim = Some(random.between(0, 13 - count / 4) as u64);
    }
    made.parts.count();
    made
}

/// A record of a board with a given deal: a short auction, the first tricks and a claim.
pub fn with_deal(random: &mut Random, board: u64, deal: &[u64]) -> Made {
    let calls = calls::short(score::dealer(board as u8), random.below(4) as u8, random.between(3, 37) as u64, random.below(3) as u8);
    let mut made = Made::new(board, random.between(1, 511) as u64, deal.to_vec(), calls);
    let tricks = random.between(1, 12);
    cards::fill_up_to(random, &mut made, 4 * tricks);
    made
}

/// A deal.
pub fn deal(random: &mut Random) -> Vec<u64> {
    cards::deal(random)
}
