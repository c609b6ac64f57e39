//! Tallies: a board's distinct scores, highest first, each with its count, and the deal that its results were played on.
use crate::score;

pub const MOST_RESULTS: usize = 128;

/// How many bytes a tally has.
pub const TALLY_BYTES: usize = 398;

/// The holders of the 52 cards.
pub type Deal = [u8; 52];

/// A refusal's number and its place.
pub type Refusal = (u32, u32);

/// Holders as they are given: 4 with place 4 for another number of them or for one that is no seat, else with the first seat without thirteen cards.
pub fn deal_of(holders: &[u8]) -> Result<Deal, Refusal> {
    let deal = Deal::try_from(holders).map_err(|_| (4, 4))?;
    if deal.iter().any(|&holder| holder > 3) {
        return Err((4, 4));
    }
    match (0..4).find(|&seat| deal.iter().filter(|&&holder| holder == seat).count() != 13) {
        Some(seat) => Err((4, u32::from(seat))),
        None => Ok(deal),
    }
}

#[derive(Clone, PartialEq, Eq, Debug)]
pub struct Tally {
    board: u8,
    /// That of the results; none where there is no result.
    deal: Option<Deal>,
    used: usize,
    scores: [i16; MOST_RESULTS],
    counts: [u8; MOST_RESULTS],
}

impl Tally {
    fn empty(board: u8, deal: Option<Deal>) -> Tally {
        Tally { board, deal, used: 0, scores: [0; MOST_RESULTS], counts: [0; MOST_RESULTS] }
    }

    /// The empty tally of a board; refusal 3 for a board that is not 1 to 127.
    pub fn fresh(board: i32) -> Result<Tally, Refusal> {
        match board {
            1..=127 => Ok(Tally::empty(board as u8, None)),
            _ => Err((3, 0)),
        }
    }

    /// The deal of the results, where there is one.
    pub fn deal(&self) -> Option<Deal> {
        self.deal
    }

    /// Scores and counts, highest first.
    pub fn entries(&self) -> impl Iterator<Item = (i32, u32)> + '_ {
        self.scores[..self.used].iter().zip(&self.counts).map(|(&s, &c)| (i32::from(s), u32::from(c)))
    }

    /// The number of results.
    pub fn results(&self) -> usize {
        self.counts[..self.used].iter().map(|&c| usize::from(c)).sum()
    }

    /// A result that is given, to be added or asked about: 20, then 4, then 28; else its deal.
    fn given(&self, score: i32, holders: &[u8]) -> Result<Deal, Refusal> {
        if !score::valid(score) {
            return Err((20, 0));
        }
        let deal = deal_of(holders)?;
        match self.deal {
            Some(carried) if carried != deal => Err((28, 0)),
            _ => Ok(deal),
        }
    }

    pub fn add(&mut self, score: i32, holders: &[u8]) -> Result<(), Refusal> {
        let deal = self.given(score, holders)?;
        if self.results() == MOST_RESULTS {
            return Err((19, 0));
        }
        self.deal = Some(deal);
        let score = score as i16;
        let at = self.scores[..self.used].partition_point(|&s| s > score);
        if at < self.used && self.scores[at] == score {
            self.counts[at] += 1;
            return Ok(());
        }
        self.scores.copy_within(at..self.used, at + 1);
        self.counts.copy_within(at..self.used, at + 1);
        self.scores[at] = score;
        self.counts[at] = 1;
        self.used += 1;
        Ok(())
    }

    /// Both tallies' results in one.
    pub fn merge(&self, other: &Tally) -> Result<Tally, Refusal> {
        if self.board != other.board {
            return Err((18, 0));
        }
        if let (Some(first), Some(second)) = (self.deal, other.deal) {
            if first != second {
                return Err((28, 0));
            }
        }
        if self.results() + other.results() > MOST_RESULTS {
            return Err((19, 0));
        }
        let mut merged = Tally::empty(self.board, self.deal.or(other.deal));
        let (mut i, mut j, mut n) = (0, 0, 0);
        while i < self.used && j < other.used {
            let (a, b) = (self.scores[i], other.scores[j]);
            merged.scores[n] = a.max(b);
            merged.counts[n] = if a >= b { self.counts[i] } else { 0 } + if b >= a { other.counts[j] } else { 0 };
            i += usize::from(a >= b);
            j += usize::from(b >= a);
            n += 1;
        }
        for (from, at) in [(self, i), (other, j)] {
            let rest = from.used - at;
            merged.scores[n..n + rest].copy_from_slice(&from.scores[at..from.used]);
            merged.counts[n..n + rest].copy_from_slice(&from.counts[at..from.used]);
            n += rest;
        }
        merged.used = n;
        Ok(merged)
    }

    /// Whether a tally is as docs/RULES.md describes it: the test for refusal 17.
    pub fn described(&self) -> bool {
        let (scores, unused) = self.scores.split_at(self.used);
        let (counts, uncounted) = self.counts.split_at(self.used);
        (1..=127).contains(&self.board)
            && self.deal.is_some() == (self.used > 0)
            && self.deal.iter().all(|deal| deal_of(deal).is_ok())
            && scores.windows(2).all(|s| s[0] > s[1])
            && scores.iter().all(|&s| score::valid(i32::from(s)))
            && counts.iter().all(|&c| c >= 1)
            && self.results() <= MOST_RESULTS
            && unused.iter().all(|&s| s == 0)
            && uncounted.iter().all(|&c| c == 0)
    }

    /// The 398 bytes: board, deal at two bits a card, scores in two's complement, counts.
    pub fn bytes(&self) -> [u8; TALLY_BYTES] {
        let mut bytes = [0; TALLY_BYTES];
        bytes[0] = self.board;
        for (card, holder) in self.deal.iter().flatten().enumerate() {
            bytes[1 + card / 4] |= holder << (6 - 2 * (card % 4));
        }
        for (two, score) in bytes[14..270].chunks_exact_mut(2).zip(self.scores) {
            two.copy_from_slice(&score.to_be_bytes());
        }
        bytes[270..].copy_from_slice(&self.counts);
        bytes
    }

    /// The tally in some bytes; none where they are not 398, or not a tally as docs/RULES.md describes it.
    pub fn read(bytes: &[u8]) -> Option<Tally> {
        let bytes: &[u8; TALLY_BYTES] = bytes.try_into().ok()?;
        let holders: Deal = std::array::from_fn(|card| bytes[1 + card / 4] >> (6 - 2 * (card % 4)) & 3);
        let scores = std::array::from_fn(|k| i16::from_be_bytes([bytes[14 + 2 * k], bytes[15 + 2 * k]]));
        let counts: [u8; MOST_RESULTS] = std::array::from_fn(|k| bytes[270 + k]);
        let used = counts.iter().position(|&c| c == 0).unwrap_or(MOST_RESULTS);
        let tally = Tally { board: bytes[0], deal: (used > 0).then_some(holders), used, scores, counts };
        (tally.described() && (used > 0 || holders == [0; 52])).then_some(tally)
    }

    /// The matchpoints, NS and EW, of one result with a score and its deal.
    pub fn matchpoints(&self, score: i32, holders: &[u8]) -> Result<(u32, u32), Refusal> {
        self.given(score, holders)?;
        let equal = self.entries().find(|&(s, _)| s == score).ok_or((21u32, 0))?.1;
        let below: u32 = self.entries().filter(|&(s, _)| s < score).map(|(_, c)| c).sum();
        let north_south = 2 * below + equal - 1;
        Ok((north_south, 2 * (self.results() as u32 - 1) - north_south))
    }
}

/// A cell of a page of results: a played result with the percentage of NS, an awarded one with its own, or a result alone on its board.
#[derive(Clone, Copy, PartialEq, Debug)]
pub enum Cell {
    Played(f64),
    Awarded(f64),
    Alone,
}

impl Cell {
    /// The cell of a result with these NS matchpoints, one of so many: one division of two whole numbers.
    pub fn of(north_south: u32, results: usize) -> Cell {
        match results {
            1 => Cell::Alone,
            n => Cell::Played(f64::from(100 * north_south) / f64::from(2 * (n as u32 - 1))),
        }
    }

    /// An award of 60, 50 or 40 per cent; 20 for any other.
    pub fn award(percent: i32) -> Result<Cell, Refusal> {
        match percent {
            60 | 50 | 40 => Ok(Cell::Awarded(f64::from(percent))),
            _ => Err((20, 0)),
        }
    }

    /// What the program `tree` writes for it: the float by its 64 bits.
    pub fn line(&self) -> String {
        match self {
            Cell::Played(x) => format!("played {:016x}\n", x.to_bits()),
            Cell::Awarded(x) => format!("awarded {:016x}\n", x.to_bits()),
            Cell::Alone => "alone\n".to_string(),
        }
    }
}
