//! What best play would give from a record's last card on: every card that may be played is tried, to the end (docs/RULES.md, 10).
use crate::deal::Hands;
use crate::judge;
use crate::play::{rank, suit};

/// 31 with place 0: passed out, more than sixteen cards left, or not at a trick's end.
pub const NO_ENDING: u32 = 31 * 1024;

/// The tricks left that declarer's side takes, or a refusal times 1024 and its place.
pub fn best(record: &[u8]) -> u32 {
    match ending(record) {
        Ok(Some(ending)) => ending.best(&RIGHT),
        Ok(None) => NO_ENDING,
        Err(number) => number,
    }
}

/// The ending that a record has reached, nothing where it has reached none.
pub fn ending(record: &[u8]) -> Result<Option<Ending>, u32> {
    let Some((contract, play, count)) = judge::to_last_card(record)? else {
        return Ok(None);
    };
    let side = contract.declarer & 1;
    let at_an_end = 52 - count <= 16 && count % 4 == 0;
    Ok(at_an_end.then(|| Ending { hands: *play.hands(), leader: play.turn(), strain: u64::from(contract.strain), side }))
}

/// A position between tricks.
#[derive(Clone, Debug)]
pub struct Ending {
    pub hands: Hands,
    pub leader: u8,
    pub strain: u64,
    pub side: u8,
}

/// Which cards may be played, who leads after a trick, what the defenders pick, and whether a defender who cannot follow suit has to discard: rules of play,
/// right or wrong.
pub struct Rules {
    pub follows: bool,
    pub trumps: bool,
    pub next_leader: fn(leader: u8, winner: u8) -> u8,
    pub defenders_help: bool,
    pub all_cards: bool,
    pub defenders_discard: bool,
}

pub const RIGHT: Rules =
    Rules { follows: true, trumps: true, next_leader: |_, winner| winner, defenders_help: false, all_cards: true, defenders_discard: true };

/// What a defender puts on a trick who does not have to discard: no card, of no suit.
const NO_CARD: u64 = 66;

/// Wrong rules, each by its name; endings have to tell each from the right ones. Where the defenders do better if they need not discard, they are squeezed.
pub const WRONG: [(&str, Rules); 7] = [
    ("the other side leads after a trick", Rules { next_leader: |_, winner| (winner + 1) & 3, ..RIGHT }),
    ("the same seat leads again", Rules { next_leader: |leader, _| leader, ..RIGHT }),
    ("suit is not followed", Rules { follows: false, ..RIGHT }),
    ("trumps are forgotten", Rules { trumps: false, ..RIGHT }),
    ("the defenders help", Rules { defenders_help: true, ..RIGHT }),
    ("only the highest and the lowest card are tried", Rules { all_cards: false, ..RIGHT }),
    ("the defenders need not discard", Rules { defenders_discard: false, ..RIGHT }),
];

impl Ending {
    /// How many cards each seat has left.
    pub fn tricks(&self) -> u32 {
        self.hands[0].count_ones()
    }

    pub fn best(&self, rules: &Rules) -> u32 {
        self.value(rules, &mut self.hands.clone(), self.leader, &mut Vec::with_capacity(4))
    }

    /// Whether the side on lead does better if the seat after its leader leads: it would rather throw the other side in.
    pub fn costs_to_lead(&self) -> bool {
        let (ours, theirs) = (self.best(&RIGHT), Ending { leader: (self.leader + 1) & 3, ..self.clone() }.best(&RIGHT));
        if self.leader & 1 == self.side {
            ours < theirs
        } else {
            theirs < ours
        }
    }

    /// The tricks that declarer's side takes from here on, with these cards on the table.
    fn value(&self, rules: &Rules, hands: &mut Hands, leader: u8, trick: &mut Vec<u64>) -> u32 {
        let seat = (leader + trick.len() as u8) & 3;
        let hand = hands[usize::from(seat)];
        if trick.is_empty() && hands[usize::from(self.side)] == 0 {
            return 0;
        }
        let ours = seat & 1 == self.side;
        let takes_most = ours || rules.defenders_help;
        let led = trick.first().copied();
        let mut left = may_play(rules, hand, led);
        if !rules.defenders_discard && !ours && led.is_some_and(|card| !follows(hand, card)) {
            left |= 1 << 63;
        }
        let mut chosen = None;
        while left != 0 {
            let card = u64::from(left.trailing_zeros());
            left &= left - 1;
            let here = self.after(rules, hands, leader, trick, seat, if card == 63 { NO_CARD } else { card });
            chosen = Some(chosen.map_or(here, |so_far| if takes_most { here.max(so_far) } else { here.min(so_far) }));
        }
        chosen.expect("a card that may be played")
    }

    fn after(&self, rules: &Rules, hands: &mut Hands, leader: u8, trick: &mut Vec<u64>, seat: u8, card: u64) -> u32 {
        let held = hands[usize::from(seat)];
        if card != NO_CARD {
            hands[usize::from(seat)] &= !(1 << card);
        }
        trick.push(card);
        let tricks = if trick.len() < 4 {
            self.value(rules, hands, leader, trick)
        } else {
            let winner = (leader + highest(trick, if rules.trumps { self.strain } else { 4 })) & 3;
            u32::from(winner & 1 == self.side) + self.value(rules, hands, (rules.next_leader)(leader, winner), &mut Vec::with_capacity(4))
        };
        trick.pop();
        hands[usize::from(seat)] = held;
        tricks
    }
}

/// The cards of a hand of the suit of a card, and whether there is one.
fn of_suit(hand: u64, card: u64) -> u64 {
    hand & 0x1FFF << (13 * suit(card))
}

fn follows(hand: u64, card: u64) -> bool {
    of_suit(hand, card) != 0
}

/// The cards of a hand that may be played, given the card led.
fn may_play(rules: &Rules, hand: u64, led: Option<u64>) -> u64 {
    let of_suit = led.map_or(0, |card| of_suit(hand, card));
    let may = if rules.follows && of_suit != 0 { of_suit } else { hand };
    if rules.all_cards {
        return may;
    }
    1 << may.trailing_zeros() | 1 << (63 - may.leading_zeros())
}

/// The place of the winning card in a trick: the highest trump, else the highest of the suit led.
fn highest(trick: &[u64], strain: u64) -> u8 {
    let worth = |card: u64| match suit(card) {
        s if s == strain => 100 + rank(card),
        s if s == suit(trick[0]) => 50 + rank(card),
        _ => 0,
    };
    (0..4u8).max_by_key(|&k| worth(trick[usize::from(k)])).expect("four cards")
}
