//! Laws 48 to 52, 59 and 61A: penalty cards, declarer's choices for a defender's lead, what binds the seat at turn, and plays against Laws 50C and 50D1.
use crate::deal::Hands;
use crate::play::{rank, suit, NO_CARD};

/// The number in a card's place that begins an exposure, and the one that begins a choice.
pub const EXPOSED: u64 = 52;
pub const CHOICE: u64 = 53;
/// The numbers from here on begin nothing that stands in a card's place.
pub const NO_CODE: u64 = 54;
/// The two kinds of a choice.
pub const REQUIRE: u64 = 0;
pub const FORBID: u64 = 1;
/// The most exposures and choices that a record may have.
pub const MOST_CODES: usize = 40;
/// The rank of the ten, the lowest honour.
pub const TEN: u64 = 8;

/// An exposure or a choice, as a record has it.
#[derive(Clone, Copy, PartialEq, Eq, Debug)]
pub enum Code {
    /// The card, and 1 where it was faced deliberately.
    Exposed(u64, u64),
    /// The kind and the suit.
    Choice(u64, u64),
}

impl Code {
    /// The refusal of a code that may not stand where it does.
    pub fn refusal(self) -> u32 {
        match self {
            Code::Exposed(..) => 25,
            Code::Choice(..) => 26,
        }
    }

    /// The number that begins it, and the two behind.
    pub fn numbers(self) -> [u64; 3] {
        match self {
            Code::Exposed(card, deliberate) => [EXPOSED, card, deliberate],
            Code::Choice(kind, suit) => [CHOICE, kind, suit],
        }
    }

    /// The widths of the three in a record.
    pub fn widths(self) -> [usize; 3] {
        match self {
            Code::Exposed(..) => [6, 6, 1],
            Code::Choice(..) => [6, 2, 2],
        }
    }
}

/// A penalty card, face up before its owner.
#[derive(Clone, Copy, PartialEq, Eq, Debug)]
pub struct Faced {
    pub card: u64,
    pub owner: u8,
    pub major: bool,
}

/// The seat at turn just before its card leaves the hand, and what it has to obey.
#[derive(Clone, Copy, Debug)]
pub struct Turn {
    pub seat: u8,
    pub hand: u64,
    /// Nothing where this seat leads.
    pub led: Option<u64>,
    pub required: Option<u64>,
    /// By suit.
    pub banned: [bool; 4],
}

impl Turn {
    fn holds(&self, suit: u64) -> bool {
        self.hand >> (13 * suit) & 0x1FFF != 0
    }

    fn bans(&self, suit: u64) -> bool {
        self.banned[suit as usize]
    }

    /// Whether a card of the hand is no revoke. Who cannot obey may play any card (Law 59).
    pub fn obeys(&self, card: u64) -> bool {
        let own = suit(card);
        match (self.led, self.required) {
            (Some(led), _) => own == led || !self.holds(led),
            (None, Some(required)) => own == required || !self.holds(required),
            (None, None) => !self.bans(own) || (0..4).all(|suit| self.bans(suit) || !self.holds(suit)),
        }
    }

    /// The suit that a play which does not obey is listed with: the one led, the one required, or the forbidden one that is led.
    pub fn listed_suit(&self, card: u64) -> u64 {
        self.led.or(self.required).unwrap_or(suit(card))
    }

    /// Whether a card is against Law 50C or 50D1 for a seat with these cards faced.
    pub fn against_law_50(&self, faced: &[Faced], card: u64) -> bool {
        if let [Faced { card: minor, major: false, .. }] = *faced {
            return card != minor && suit(card) == suit(minor) && rank(card) < TEN;
        }
        let due: Vec<u64> = faced.iter().filter(|f| f.major && self.obeys(f.card)).map(|f| f.card).collect();
        !due.is_empty() && !due.contains(&card)
    }
}

/// The rules that a judge with a fault may have otherwise, so that it can be tried whether comparing finds it. `RIGHT` has those of the Laws.
pub struct Rules {
    /// Whether a card, faced deliberately or not, is major by itself.
    pub major: fn(u64, bool) -> bool,
    /// Whether faced cards of these two owners count together for two or more.
    pub together: fn(u8, u8) -> bool,
    /// What becomes of the cards that stay faced when another has left.
    pub left: fn(&mut [Faced]),
    /// Whether a defender who has to lead can have this kind of choice made for him in this suit.
    pub open: fn(&Penalty, u8, u64, u64) -> bool,
    /// Whether a choice for a leader picks up the cards of an owner.
    pub picks_up: fn(u8, u8) -> bool,
    /// Whether a leader's bans last after a trick that a seat has won.
    pub lasts: fn(u8, u8) -> bool,
    /// Whether a requirement lasts after the lead.
    pub requires_on: bool,
    /// Whether a card is no revoke.
    pub obeys: fn(&Turn, u64) -> bool,
    pub listed_suit: fn(&Turn, u64) -> u64,
    /// Whether a faced card excuses a revoke (Law 64B3).
    pub excuses: fn(&Turn, u64) -> bool,
    /// Whether a card is against Law 50C or 50D1: before it leaves the hand, after, the cards faced before, the card.
    pub against: fn(&Turn, &Turn, &[Faced], u64) -> bool,
    /// Whether the 41st code is refused before its bits are read.
    pub counts_first: bool,
}

pub const RIGHT: Rules = Rules {
    major: |card, deliberate| deliberate || rank(card) >= TEN,
    together: |a, b| a == b,
    left: |_| {},
    open: Penalty::open,
    picks_up: |leader, owner| owner == leader ^ 2,
    lasts: |leader, winner| leader == winner,
    requires_on: false,
    obeys: Turn::obeys,
    listed_suit: Turn::listed_suit,
    excuses: Turn::obeys,
    against: |before, _, faced, card| before.against_law_50(faced, card),
    counts_first: true,
};

/// The penalty cards on the table and the choices in force.
#[derive(Clone)]
pub struct Penalty {
    pub rules: &'static Rules,
    declarer: u8,
    faced: Vec<Faced>,
    /// For the lead that comes next.
    required: Option<u64>,
    /// For the seat that leads, by suit.
    banned: [bool; 4],
    codes: usize,
}

impl Penalty {
    pub fn new(rules: &'static Rules, declarer: u8) -> Self {
        Penalty { rules, declarer, faced: Vec::new(), required: None, banned: [false; 4], codes: 0 }
    }

    /// The codes so far.
    pub fn codes(&self) -> usize {
        self.codes
    }

    pub fn faced(&self) -> &[Faced] {
        &self.faced
    }

    pub fn faced_of(&self, seat: u8) -> Vec<Faced> {
        self.faced.iter().copied().filter(|f| f.owner == seat).collect()
    }

    pub fn required(&self) -> Option<u64> {
        self.required
    }

    pub fn banned(&self) -> [bool; 4] {
        self.banned
    }

    pub fn defends(&self, seat: u8) -> bool {
        (seat ^ self.declarer) & 1 == 1
    }

    /// A card is exposed; false where it is no card in a defender's hand, or is faced already.
    pub fn exposed(&mut self, hands: &Hands, card: u64, deliberate: bool) -> bool {
        self.codes += 1;
        if card >= NO_CARD || self.faced.iter().any(|f| f.card == card) {
            return false;
        }
        let Some(owner) = (0..4).find(|&seat| self.defends(seat) && hands[usize::from(seat)] >> card & 1 == 1) else { return false };
        self.faced.push(Faced { card, owner, major: (self.rules.major)(card, deliberate) });
        let together = self.rules.together;
        let company = |f: &&mut Faced| together(owner, f.owner);
        if self.faced.iter_mut().filter(company).count() >= 2 {
            self.faced.iter_mut().filter(company).for_each(|f| f.major = true);
        }
        true
    }

    /// Declarer requires or forbids a suit of the seat that has to lead, where some seat has to; false where the choice is not open.
    pub fn chosen(&mut self, to_lead: Option<u8>, kind: u64, named: u64) -> bool {
        self.codes += 1;
        let Some(leader) = to_lead.filter(|&seat| self.defends(seat)) else { return false };
        if !(self.rules.open)(self, leader, kind, named) {
            return false;
        }
        match kind {
            REQUIRE => self.required = Some(named),
            _ => self.banned[named as usize] = true,
        }
        let picks_up = self.rules.picks_up;
        self.leave(|f| picks_up(leader, f.owner) && suit(f.card) == named);
        true
    }

    /// Whether a choice of this kind and suit is open before a defender's lead.
    pub fn open(&self, leader: u8, kind: u64, named: u64) -> bool {
        let caused = self.faced.iter().any(|f| f.owner == leader ^ 2 && f.major && suit(f.card) == named);
        let may = match kind {
            REQUIRE => self.banned == [false; 4],
            FORBID => true,
            _ => false,
        };
        caused && may && self.required.is_none()
    }

    fn leave(&mut self, which: impl Fn(&Faced) -> bool) {
        let before = self.faced.len();
        self.faced.retain(|f| !which(f));
        if self.faced.len() < before {
            (self.rules.left)(&mut self.faced);
        }
    }

    /// A card has left its hand.
    pub fn played(&mut self, card: u64) {
        self.leave(|f| f.card == card);
        if !self.rules.requires_on {
            self.required = None;
        }
    }

    /// A trick is complete.
    pub fn trick_won(&mut self, leader: u8, winner: u8) {
        if !(self.rules.lasts)(leader, winner) {
            self.banned = [false; 4];
        }
    }
}
