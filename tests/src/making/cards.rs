//! Deals, and cards played as the Laws let them be played, revokes among them.
use super::Made;
use crate::play::Play;
use crate::random::Random;

const SUIT: u64 = (1 << 13) - 1;

/// A deal: most often at random, sometimes of long suits, down to a whole suit a seat.
pub fn deal(random: &mut Random) -> Vec<u64> {
    let mut holders: Vec<u64> = (0..52).map(|card| card / 13).collect();
    match random.below(10) {
        0 => random.shuffle_seats(&mut holders),
        1 | 2 => {
            random.shuffle_seats(&mut holders);
            for _ in 0..random.between(1, 20) {
                let (a, b) = (random.below(52), random.below(52));
                holders.swap(a, b);
            }
        }
        _ => random.shuffle(&mut holders),
    }
    holders
}

impl Random {
    /// Other seats for the same hands.
    fn shuffle_seats(&mut self, holders: &mut [u64]) {
        let mut seats = [0, 1, 2, 3];
        self.shuffle(&mut seats);
        for holder in holders {
            *holder = seats[*holder as usize];
        }
    }

    pub(crate) fn card_of(&mut self, cards: u64) -> u64 {
        let mut left = cards;
        for _ in 0..self.below(cards.count_ones() as usize) {
            left &= left - 1;
        }
        u64::from(left.trailing_zeros())
    }

    /// How often, in a hundred, each seat revokes where it can.
    pub(super) fn revoking(&mut self, declarer: u8) -> [usize; 4] {
        let often = *self.pick(&[2, 10, 40, 100]);
        let dummy = usize::from(declarer ^ 2);
        let mut chances = [0; 4];
        match self.below(8) {
            0 => {}
            1 => chances = [often; 4],
            2 => chances[self.below(4)] = often,
            3 => chances[dummy] = often,
            4 => chances[usize::from(declarer)] = often,
            _ => {
                let side = self.below(2);
                chances[side] = often;
                chances[side + 2] = *self.pick(&[0, 2, often]);
            }
        }
        chances
    }
}

/// Plays the cards of a contract to the end or to a claim.
pub fn fill(random: &mut Random, made: &mut Made) {
    let count = if random.percent(50) { random.between(1, 51) } else { 52 };
    fill_up_to(random, made, count);
}

/// Plays so many cards of a contract, and claims some of the rest where there is one.
pub fn fill_up_to(random: &mut Random, made: &mut Made, count: usize) {
    let contract = made.contract.expect("a contract");
    let chances = random.revoking(contract.declarer);
    let mut play = Play::new(made.hands, contract.strain, contract.declarer);
    for _ in 0..count {
        let hand = play.hand_at_turn();
        let (follow, off) = match play.led() {
            Some(suit) => (hand & SUIT << (13 * suit), hand & !(SUIT << (13 * suit))),
            None => (hand, 0),
        };
        let off_suit = follow == 0 || (off != 0 && random.percent(chances[usize::from(play.turn())]));
        let card = random.card_of(if off_suit { off } else { follow });
        assert!(play.card(card), "a card in the hand at turn");
        made.parts.cards.push(card);
    }
    if count < 52 {
        made.parts.claim = Some(random.between(0, 13 - count / 4) as u64);
    }
    made.parts.count();
}

/// A deal and its play with three revokes on each of tricks 1 to 12, at notrump or with the long suit as trumps: the leader has ten
/// cards of a long suit and three of another, and each other seat keeps a card of both suits to the end. Gives the long suit too.
/// Trick 12 is the leader's at notrump, and with trumps the highest one's that is kept.
pub fn most_revokes(random: &mut Random, leader: u8, trumps: bool) -> (u64, Vec<u64>, Vec<u64>) {
    let mut suits = [0u64, 1, 2, 3];
    random.shuffle(&mut suits);
    let mut cards_of = suits.map(|suit| {
        let mut cards: Vec<u64> = (13 * suit..13 * suit + 13).collect();
        random.shuffle(&mut cards);
        cards
    });
    let long: Vec<u64> = cards_of[0].split_off(3);
    let second: Vec<u64> = cards_of[1].split_off(10);
    let kept: Vec<[u64; 3]> = (0..3).map(|_| [0, 1, 2].map(|s| cards_of[s].pop().expect("a card to keep"))).collect();
    let mut rest: Vec<u64> = cards_of.concat();
    random.shuffle(&mut rest);
    let others: Vec<&[u64]> = rest.chunks(10).collect();

    let mut deal = vec![u64::from(leader); 52];
    for k in 0..3 {
        for &card in kept[k].iter().chain(others[k]) {
            deal[card as usize] = u64::from((leader + 1 + k as u8) & 3);
        }
    }
    let mut cards = Vec::new();
    for trick in 0..10 {
        cards.push(long[trick]);
        cards.extend(others.iter().map(|other| other[trick]));
    }
    cards.push(second[0]);
    cards.extend(kept.iter().map(|k| k[2]));
    cards.push(second[1]);
    cards.extend(kept.iter().map(|k| k[0]));
    let mut last = [second[2], kept[0][1], kept[1][1], kept[2][1]];
    if trumps {
        let highest = (0..3).max_by_key(|&k| kept[k][0]).expect("three seats");
        last.rotate_left(highest + 1);
    }
    cards.extend(last);
    (suits[0], deal, cards)
}
