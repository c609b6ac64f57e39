//! Law 44 and revokes: the play of the cards, with the penalty cards among them.
use crate::deal::Hands;
use crate::penalty::{Code, Faced, Penalty, Rules, Turn, RIGHT};

/// The numbers from here on are no cards.
pub const NO_CARD: u64 = 52;
/// Thirteen tricks of four cards, and none of trick 13 can be a revoke.
pub const MOST_REVOKES: usize = 48;

const SUIT: u64 = (1 << 13) - 1;

/// The trick under way.
#[derive(Clone, Copy)]
pub struct Trick {
    trump: u64,
    turn: u8,
    /// Cards played to it.
    on_table: u8,
    led: u64,
    /// The worth of the best card so far, with the seat that played it in the two lowest bits.
    best: u64,
    /// Tricks that are complete.
    complete: usize,
    revokes: usize,
}

/// The hands as they are, the winners of the tricks, the cards that won them, and the revokes. It stands apart from the trick, whose few numbers can then
/// be kept in registers.
#[derive(Clone)]
pub struct Cards {
    hands: Hands,
    winners: [u8; 13],
    winning: [u8; 13],
    /// One place more than can be filled, since every card is put down here and only a revoke is counted.
    list: [u8; MOST_REVOKES + 1],
}

#[derive(Clone)]
pub struct Play {
    pub trick: Trick,
    pub cards: Cards,
    pub penalty: Penalty,
    /// The revokes that Law 64B3 excuses, by their number in the list, the first one lowest.
    pub excused: u64,
    /// Plays against Laws 50C and 50D1 in order of play: trick, seat, card.
    pub failures: Vec<(u8, u8, u64)>,
}

/// The suit of a card, 13 cards each.
#[inline]
pub fn suit(card: u64) -> u64 {
    card * 5 >> 6
}

/// The rank of a card, 0 for the two.
pub fn rank(card: u64) -> u64 {
    card - 13 * suit(card)
}

impl Trick {
    #[inline]
    pub fn turn(&self) -> u8 {
        self.turn
    }

    /// Plays a card of a code below 52; false where the seat at turn does not hold it.
    #[inline]
    pub fn card(&mut self, cards: &mut Cards, card: u64) -> bool {
        let hand = &mut cards.hands[usize::from(self.turn & 3)];
        if *hand >> card & 1 == 0 {
            return false;
        }
        let own = suit(card);
        if self.on_table == 0 {
            self.led = own;
            self.best = 0;
        }
        let revoke = own != self.led && *hand & SUIT << (13 * self.led) != 0;
        cards.list[self.revokes] = ((self.complete + 1) as u8) << 4 | self.turn << 2 | self.led as u8;
        self.revokes += usize::from(revoke);
        *hand &= !(1 << card);
        // A card of another suit is below any card of the suit led, and that below any trump.
        let worth = u64::from(own == self.trump) << 7 | u64::from(own == self.led) << 6 | card;
        self.best = self.best.max(worth << 2 | u64::from(self.turn));
        self.on_table += 1;
        self.turn = (self.turn + 1) & 3;
        if self.on_table == 4 {
            self.turn = (self.best & 3) as u8;
            cards.winners[self.complete] = self.turn;
            cards.winning[self.complete] = (self.best >> 2 & 63) as u8;
            self.complete += 1;
            self.on_table = 0;
        }
        true
    }
}

impl Play {
    /// The position before the opening lead.
    pub fn new(hands: Hands, strain: u8, declarer: u8) -> Self {
        Play::by(&RIGHT, hands, strain, declarer)
    }

    /// The same with these rules for penalty cards.
    pub fn by(rules: &'static Rules, hands: Hands, strain: u8, declarer: u8) -> Self {
        let turn = (declarer + 1) & 3;
        let trick = Trick { trump: u64::from(strain), turn, on_table: 0, led: 0, best: 0, complete: 0, revokes: 0 };
        let cards = Cards { hands, winners: [0; 13], winning: [0; 13], list: [0; MOST_REVOKES + 1] };
        Play { trick, cards, penalty: Penalty::new(rules, declarer), excused: 0, failures: Vec::new() }
    }

    /// Takes an exposure or a choice; false where it may not stand here.
    pub fn code(&mut self, code: Code) -> bool {
        match code {
            Code::Exposed(card, deliberate) => self.penalty.exposed(&self.cards.hands, card, deliberate == 1),
            Code::Choice(kind, suit) => self.penalty.chosen(self.to_lead(), kind, suit),
        }
    }

    /// Plays a card of a code below 52; false where the seat at turn does not hold it.
    #[inline]
    pub fn card(&mut self, card: u64) -> bool {
        if self.penalty.codes() == 0 {
            self.trick.card(&mut self.cards, card)
        } else {
            self.card_after_codes(card)
        }
    }

    /// The same where penalty cards and choices have to be looked at.
    #[cold]
    fn card_after_codes(&mut self, card: u64) -> bool {
        let (turn, number, listed) = (self.at_turn(), self.trick.complete as u8 + 1, self.trick.revokes);
        if !self.trick.card(&mut self.cards, card) {
            return false;
        }
        let rules = self.penalty.rules;
        let faced = self.penalty.faced_of(turn.seat);
        if !(rules.obeys)(&turn, card) {
            self.cards.list[listed] = number << 4 | turn.seat << 2 | (rules.listed_suit)(&turn, card) as u8;
            self.trick.revokes = listed + 1;
            self.excused |= u64::from(faced.iter().any(|f| (rules.excuses)(&turn, f.card))) << listed;
        }
        let after = Turn { hand: turn.hand & !(1 << card), ..turn };
        if (rules.against)(&turn, &after, &faced, card) {
            self.failures.push((number, turn.seat, card));
        }
        self.penalty.played(card);
        if self.trick.on_table == 0 {
            // The fourth card is played by the seat before the leader.
            self.penalty.trick_won((turn.seat + 1) & 3, self.trick.turn);
        }
        true
    }

    pub fn turn(&self) -> u8 {
        self.trick.turn
    }

    /// The seat that has to lead, where the trick has no card.
    pub fn to_lead(&self) -> Option<u8> {
        (self.trick.on_table == 0).then_some(self.trick.turn)
    }

    /// The seat at turn and what binds it.
    pub fn at_turn(&self) -> Turn {
        let (seat, hand, led) = (self.turn(), self.hand_at_turn(), self.led());
        Turn { seat, hand, led, required: self.penalty.required(), banned: self.penalty.banned() }
    }

    /// The cards of the seat at turn.
    pub fn hand_at_turn(&self) -> u64 {
        self.cards.hands[usize::from(self.trick.turn)]
    }

    pub fn hands(&self) -> &Hands {
        &self.cards.hands
    }

    /// The faced cards of the seat at turn.
    pub fn faced_at_turn(&self) -> Vec<Faced> {
        self.penalty.faced_of(self.turn())
    }

    /// The suit led to the trick under way.
    pub fn led(&self) -> Option<u64> {
        (self.trick.on_table != 0).then_some(self.trick.led)
    }

    /// The winner of each trick that is complete.
    pub fn winners(&self) -> &[u8] {
        &self.cards.winners[..self.trick.complete]
    }

    /// The card that won each trick that is complete.
    pub fn winning_cards(&self) -> &[u8] {
        &self.cards.winning[..self.trick.complete]
    }

    /// The revokes in order of play, as the judge lists them: trick, seat, suit.
    pub fn revokes(&self) -> &[u8] {
        &self.cards.list[..self.trick.revokes]
    }
}
