//! Laws 18, 19, 22 and 27A: the auction, its contract and its declarer.

pub const PASS: u64 = 0;
pub const DOUBLE: u64 = 1;
pub const REDOUBLE: u64 = 2;
/// The lowest bid, one club.
pub const FIRST_BID: u64 = 3;
/// The highest bid, seven notrump.
pub const LAST_BID: u64 = 37;
/// The next call is an insufficient bid that was accepted.
pub const MARK: u64 = 38;
/// The codes from here on are neither calls nor marks.
pub const NO_CALL: u64 = 39;

/// Why a call is refused, as docs/RULES.md numbers it.
#[derive(Clone, Copy, PartialEq, Eq, Debug)]
pub enum Fault {
    BidNotAbove = 6,
    DoubleNotAllowed = 7,
    AfterTheEnd = 8,
    WrongMark = 24,
}

impl Fault {
    /// The place of a fault that is found at a code: a wrong mark is the code before it.
    pub fn place(self, code: u64) -> u64 {
        match self {
            Fault::WrongMark => code - 1,
            _ => code,
        }
    }
}

#[derive(Clone)]
pub struct Auction {
    turn: u8,
    /// The last bid's code, 0 before the first.
    bid: u8,
    bidder: u8,
    doubling: u8,
    /// Passes in a row up to this point.
    passes: u8,
    /// The code before is a mark.
    marked: bool,
    /// The first seat of each side to have bid each strain.
    first: [[u8; 5]; 2],
}

#[derive(Clone, Copy, PartialEq, Eq, Debug)]
pub struct Contract {
    pub level: u8,
    pub strain: u8,
    pub doubling: u8,
    pub declarer: u8,
}

const NOBODY: u8 = 4;

impl Auction {
    pub fn new(dealer: u8) -> Self {
        Auction { turn: dealer, bid: 0, bidder: 0, doubling: 0, passes: 0, marked: false, first: [[NOBODY; 5]; 2] }
    }

    pub fn over(&self) -> bool {
        self.passes == 4 || (self.passes == 3 && self.bid != 0)
    }

    pub fn last_bid(&self) -> u8 {
        self.bid
    }

    pub fn doubling(&self) -> u8 {
        self.doubling
    }

    pub fn passes(&self) -> u8 {
        self.passes
    }

    fn own_side_bid(&self) -> bool {
        (self.bidder ^ self.turn) & 1 == 0
    }

    /// Takes a call by the seat at turn, or a mark, of a code below 39.
    #[inline]
    pub fn call(&mut self, code: u64) -> Result<(), Fault> {
        if self.over() {
            return Err(Fault::AfterTheEnd);
        }
        if self.marked {
            return self.accepted(code);
        }
        match code {
            MARK => {
                self.marked = true;
                return Ok(());
            }
            PASS => self.passes += 1,
            DOUBLE => {
                if self.bid == 0 || self.doubling != 0 || self.own_side_bid() {
                    return Err(Fault::DoubleNotAllowed);
                }
                self.doubling = 1;
                self.passes = 0;
            }
            REDOUBLE => {
                if self.doubling != 1 || !self.own_side_bid() {
                    return Err(Fault::DoubleNotAllowed);
                }
                self.doubling = 2;
                self.passes = 0;
            }
            _ => self.bid(code as u8)?,
        }
        self.turn = (self.turn + 1) & 3;
        Ok(())
    }

    /// After a mark: a bid at or below a last bid.
    fn accepted(&mut self, code: u64) -> Result<(), Fault> {
        if !(FIRST_BID..=u64::from(self.bid)).contains(&code) {
            return Err(Fault::WrongMark);
        }
        self.marked = false;
        self.stands(code as u8);
        self.turn = (self.turn + 1) & 3;
        Ok(())
    }

    fn bid(&mut self, code: u8) -> Result<(), Fault> {
        if code <= self.bid {
            return Err(Fault::BidNotAbove);
        }
        self.stands(code);
        Ok(())
    }

    /// The bid stands as the last one.
    fn stands(&mut self, code: u8) {
        let first = &mut self.first[usize::from(self.turn & 1)][usize::from((code - 3) % 5)];
        if *first == NOBODY {
            *first = self.turn;
        }
        self.bid = code;
        self.bidder = self.turn;
        self.doubling = 0;
        self.passes = 0;
    }

    /// The contract of an auction that is over, nothing where it was passed out.
    pub fn contract(&self) -> Option<Contract> {
        if self.bid == 0 {
            return None;
        }
        let (level, strain) = ((self.bid - 3) / 5 + 1, (self.bid - 3) % 5);
        let declarer = self.first[usize::from(self.bidder & 1)][usize::from(strain)];
        Some(Contract { level, strain, doubling: self.doubling, declarer })
    }
}
