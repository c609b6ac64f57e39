//! Records that have reached a squeeze: three tricks are left, declarer leads the only card of a suit, and the defender after him has to give up one of two
//! suits that he alone guards.
use super::{calls, place, Made};
use crate::random::Random;
use crate::score;

/// How many tricks have been played, and how many cards each seat has played in them.
const PLAYED: usize = 10;

/// One notrump.
const BID: u64 = 7;

/// Who has the cards of the ending, by suit from the highest card on: declarer 0, the defender after him 1, dummy 2, the other defender 3.
/// Dummy has a winner and a threat in the first suit and a threat in the second; the third is the suit led, and in the last nobody has to win.
const ENDING: [&[u64]; 4] = [&[2, 1, 1, 2, 0], &[1, 2], &[0], &[3, 3, 3, 0]];

/// A record after ten tricks, with no claim: the play went as it might, revokes among it, until declarer won the tenth trick.
pub fn record(random: &mut Random) -> Made {
    let (board, table) = place(random);
    let declarer = random.below(4) as u8;
    let auction = calls::short(score::dealer(board as u8), declarer, BID, 0);
    loop {
        let (deal, kept) = deal(random, u64::from(declarer));
        let mut made = Made::new(board, table, deal, auction.clone());
        if play(random, &mut made, kept) == declarer {
            made.parts.count();
            return made;
        }
    }
}

/// The holder of each card, and the cards of the ending.
fn deal(random: &mut Random, declarer: u64) -> (Vec<u64>, u64) {
    let mut suits = [0, 1, 2, 3];
    random.shuffle(&mut suits);
    let (mut holders, mut kept) = (vec![None; 52], 0);
    for (seats, suit) in ENDING.iter().zip(suits) {
        let mut ranks: Vec<usize> = (0..13).collect();
        random.shuffle(&mut ranks);
        ranks.truncate(seats.len());
        ranks.sort_unstable_by(|a, b| b.cmp(a));
        for (&seat, rank) in seats.iter().zip(ranks) {
            holders[13 * suit + rank] = Some((declarer + seat) & 3);
            kept |= 1 << (13 * suit + rank);
        }
    }
    let mut others: Vec<u64> = (0..4 * PLAYED as u64).map(|k| k & 3).collect();
    random.shuffle(&mut others);
    let holders = holders.into_iter().map(|holder| holder.unwrap_or_else(|| others.pop().expect("forty other cards"))).collect();
    (holders, kept)
}

/// Plays ten tricks of the other cards, each seat's in any order; who leads to the next.
fn play(random: &mut Random, made: &mut Made, kept: u64) -> u8 {
    let mut play = made.position(0).expect("a contract");
    while made.parts.cards.len() < 4 * PLAYED {
        let seat = usize::from(play.turn());
        let card = random.card_of(play.hands()[seat] & !kept);
        assert!(play.card(card), "a card that the seat holds");
        made.parts.cards.push(card);
    }
    play.turn()
}
