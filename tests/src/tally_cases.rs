//! Calls on tallies in bytes with arguments of all kinds: tallies that trees of calls leave, forged bytes, wrong lengths, holders and scores of all kinds.
use crate::random::Random;
use crate::tally::{Deal, Tally, MOST_RESULTS, TALLY_BYTES};
use crate::tally_calls::Calls;

/// A call with its arguments, but for the lent buffer.
#[derive(Clone, Debug)]
pub enum Call {
    Fresh(u32),
    Add(Vec<u8>, i32, Vec<u8>),
    Merge(Vec<u8>, Vec<u8>),
    Matchpoints(Vec<u8>, i32, Vec<u8>),
    Award(u32),
    Cell(Vec<u8>, i32, Vec<u8>),
    Hundredths(Vec<u8>, i32, Vec<u8>),
}

pub const KINDS: usize = 7;

impl Call {
    /// Its number in a file of cases.
    pub fn kind(&self) -> usize {
        match self {
            Call::Fresh(_) => 0,
            Call::Add(..) => 1,
            Call::Merge(..) => 2,
            Call::Matchpoints(..) => 3,
            Call::Award(_) => 4,
            Call::Cell(..) => 5,
            Call::Hundredths(..) => 6,
        }
    }

    /// How many bytes it writes.
    pub fn needs(&self) -> usize {
        match self {
            Call::Fresh(_) | Call::Add(..) | Call::Merge(..) => TALLY_BYTES,
            Call::Matchpoints(..) | Call::Hundredths(..) => 4,
            Call::Award(_) | Call::Cell(..) => 9,
        }
    }

    /// The number among its arguments, and its slices.
    pub fn parts(&self) -> (u32, [&[u8]; 2]) {
        match self {
            Call::Fresh(n) | Call::Award(n) => (*n, [&[], &[]]),
            Call::Merge(a, b) => (0, [a, b]),
            Call::Add(t, s, h) | Call::Matchpoints(t, s, h) | Call::Cell(t, s, h) | Call::Hundredths(t, s, h) => (*s as u32, [t, h]),
        }
    }

    pub fn made_by(&self, calls: &Calls, out: &mut [u8]) -> u32 {
        self.made_on(self.parts().1, calls, out)
    }

    /// The call with its slices where they are given, of the same bytes.
    pub fn made_on(&self, [a, b]: [&[u8]; 2], calls: &Calls, out: &mut [u8]) -> u32 {
        match self {
            Call::Fresh(board) => (calls.fresh)(*board, out),
            Call::Add(_, score, _) => (calls.add)(a, *score, b, out),
            Call::Merge(..) => (calls.merge)(a, b, out),
            Call::Matchpoints(_, score, _) => (calls.matchpoints)(a, *score, b, out),
            Call::Award(percent) => (calls.award)(*percent, out),
            Call::Cell(_, score, _) => (calls.cell)(a, *score, b, out),
            Call::Hundredths(_, score, _) => (calls.hundredths)(a, *score, b, out),
        }
    }
}

/// What calls are made with: few boards and deals, so that they meet.
pub struct Cases {
    deals: Vec<Deal>,
}

impl Cases {
    pub fn new(random: &mut Random) -> Cases {
        let mut deals: Vec<Deal> = (0..2).map(|_| dealt(random)).collect();
        let mut near = deals[0];
        let other = (1..52).find(|&card| near[card] != near[0]).expect("a card of another seat");
        near.swap(0, other);
        deals.push(near);
        Cases { deals }
    }

    pub fn call(&self, random: &mut Random) -> Call {
        match random.below(24) {
            0 => Call::Fresh(self.board(random)),
            1 => Call::Award(self.percent(random)),
            2..=5 => {
                let (tally, score, holders) = self.asked(random);
                Call::Add(tally, score, holders)
            }
            6..=11 => Call::Merge(self.tally(random), self.tally(random)),
            12..=15 => {
                let (tally, score, holders) = self.asked(random);
                Call::Matchpoints(tally, score, holders)
            }
            16..=19 => {
                let (tally, score, holders) = self.asked(random);
                Call::Hundredths(tally, score, holders)
            }
            _ => {
                let (tally, score, holders) = self.asked(random);
                Call::Cell(tally, score, holders)
            }
        }
    }

    fn board(&self, random: &mut Random) -> u32 {
        match random.below(3) {
            0 => random.between(1, 127) as u32,
            1 => *random.pick(&[0, 1, 127, 128, 255, 256, 257, 383, 384, u32::MAX - 1, u32::MAX]),
            _ => random.word() as u32,
        }
    }

    fn percent(&self, random: &mut Random) -> u32 {
        match random.below(3) {
            0 => *random.pick(&[60, 50, 40]),
            1 => *random.pick(&[0, 39, 41, 49, 51, 59, 61, 100, 60 + 256, 50 + 65536, u32::MAX]),
            _ => random.word() as u32,
        }
    }

    /// A tally, a score and holders: mostly ones that fit.
    fn asked(&self, random: &mut Random) -> (Vec<u8>, i32, Vec<u8>) {
        let tally = self.tally(random);
        let read = Tally::read(&tally);
        let in_tally: Vec<i32> = read.iter().flat_map(|t| t.entries().map(|(s, _)| s)).collect();
        let score = if !in_tally.is_empty() && random.percent(60) { *random.pick(&in_tally) } else { any_score(random) };
        let carried = read.and_then(|t| t.deal()).filter(|_| random.percent(70));
        (tally, score, carried.map_or_else(|| self.holders(random), |deal| deal.to_vec()))
    }

    /// Holders, mostly of one of the deals.
    fn holders(&self, random: &mut Random) -> Vec<u8> {
        let mut holders = random.pick(&self.deals).to_vec();
        match random.below(12) {
            0 => holders[random.below(52)] = random.between(4, 255) as u8,
            1 => holders[random.below(52)] = random.below(4) as u8,
            2 => holders.truncate(random.below(52)),
            3 => holders.push(random.below(4) as u8),
            4 => holders = vec![0; *random.pick(&[0, 51, 52, 53, 104])],
            5 => holders = random.bytes(52),
            _ => (),
        }
        holders
    }

    /// The bytes of a tally that calls leave; or forged ones.
    fn tally(&self, random: &mut Random) -> Vec<u8> {
        let bytes = self.left(random).bytes().to_vec();
        if random.percent(75) {
            return bytes;
        }
        forged(random, bytes)
    }

    /// A tally of 0 to 128 results.
    fn left(&self, random: &mut Random) -> Tally {
        let mut tally = Tally::fresh(*random.pick(&[1, 1, 1, 2, 127])).expect("a board");
        let deal = *random.pick(&[0, 0, 0, 0, 0, 0, 0, 1, 2]);
        let most = *random.pick(&[0, 1, 2, 10, 64, MOST_RESULTS, MOST_RESULTS]);
        let spread = *random.pick(&[3, 30, 761]);
        let results = if random.percent(40) { most } else { random.between(most / 2, most) };
        for _ in 0..results {
            let score = 20 * (random.below(spread) as i32) - 10 * spread as i32 + 10;
            tally.add(score / 10 * 10, &self.deals[deal]).expect("a valid score with room for it");
        }
        tally
    }
}

/// Thirteen cards for each seat.
fn dealt(random: &mut Random) -> Deal {
    let mut deal: Deal = std::array::from_fn(|card| (card % 4) as u8);
    random.shuffle(&mut deal);
    deal
}

/// Any integer, among them those that fewer bits would take for a valid score.
fn any_score(random: &mut Random) -> i32 {
    let valid = 10 * (random.below(1521) as i32 - 760);
    match random.below(8) {
        0..=3 => valid,
        4 => valid.wrapping_add(65536 * random.between(1, 32767) as i32),
        5 => valid + random.between(1, 9) as i32,
        6 => *random.pick(&[7600, 7610, 7601, -7600, -7610, -7601, 32760, -32760, 32768, -32768, 1, -1, i32::MAX, i32::MIN, i32::MIN + 8]),
        _ => random.word() as i32,
    }
}

/// Bytes of a tally made into other ones: a length that is none, or one byte or field that a tally cannot have, or has only by chance.
fn forged(random: &mut Random, mut bytes: Vec<u8>) -> Vec<u8> {
    let place = random.below(MOST_RESULTS);
    let used = bytes[270..].iter().take_while(|&&c| c > 0).count();
    let at = random.below(used.max(1));
    match random.below(18) {
        0 => bytes.truncate(*random.pick(&[0, 1, 13, 14, 269, 270, 397])),
        1 => bytes.push(random.below(2) as u8),
        2 => bytes.extend(bytes.clone()),
        3 => bytes[0] = *random.pick(&[0, 128, 129, 255]),
        4 => bytes[1..14].fill(0),
        5 => bytes[1 + random.below(13)] ^= 1 << random.below(8),
        6 => bytes.copy_within(14 + 2 * at..16 + 2 * at, 14 + 2 * ((at + 1) % 128)),
        7 => bytes.swap(14 + 2 * at, 15 + 2 * at),
        8 => bytes[14 + 2 * place..16 + 2 * place].copy_from_slice(&(any_score(random) as i16).to_be_bytes()),
        9 => bytes[270 + at] = 0,
        10 => bytes[270 + place] = bytes[270 + place].wrapping_add(random.between(1, 255) as u8),
        11 => bytes[270..].fill(1),
        12 => bytes[15 + 2 * place] ^= 1 << random.below(8),
        13 => bytes[random.below(TALLY_BYTES)] ^= 1 << random.below(8),
        14 => bytes = vec![*random.pick(&[0, 255]); TALLY_BYTES],
        15 => bytes[1..].fill(255),
        16 => bytes = random.bytes(TALLY_BYTES),
        _ => bytes[random.below(TALLY_BYTES)] = random.word() as u8,
    }
    bytes
}
