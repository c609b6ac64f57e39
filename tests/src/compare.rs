//! A judge is compared with the one written here: the number, every byte of the four buffers, and the bytes on both sides of them.
use crate::judge::{self, Judgement, Lent, ANSWER_BYTES, FAILURE_BYTES, WINNER_BYTES};
use crate::play::MOST_REVOKES;
use crate::random::Random;
use crate::score;

/// A judge as C sees it: the record, and the lent buffers.
pub type Judge = fn(&[u8], &mut Lent) -> u32;

/// Bytes on each side of a buffer that no judge may change.
const AROUND: usize = 24;

/// The lengths of the four buffers.
#[derive(Clone, Copy, Debug)]
pub struct Room {
    pub answer: usize,
    pub list: usize,
    pub failures: usize,
    pub winners: usize,
}

impl Room {
    pub const EXACT: Room = Room { answer: ANSWER_BYTES, list: MOST_REVOKES, failures: FAILURE_BYTES, winners: WINNER_BYTES };

    pub fn longer(random: &mut Random) -> Room {
        let (answer, list) = (random.between(7, 60), random.between(48, 100));
        Room { answer, list, failures: random.between(52, 110), winners: random.between(26, 80) }
    }

    /// At least one buffer too short: each alone, some of them, all four.
    pub fn shorter(random: &mut Random) -> Room {
        let (which, enough) = (random.between(1, 15), Room::longer(random));
        let mut length = |k: usize, least: usize, enough: usize| {
            let below = random.below(least);
            *random.pick(&if which >> k & 1 == 0 { [least, enough] } else { [least - 1, below] })
        };
        let (answer, list) = (length(0, 7, enough.answer), length(1, 48, enough.list));
        Room { answer, list, failures: length(2, 52, enough.failures), winners: length(3, 26, enough.winners) }
    }

    fn refusal(self) -> Option<u32> {
        if self.answer < ANSWER_BYTES {
            Some(1024)
        } else if self.list < MOST_REVOKES {
            Some(1025)
        } else if self.failures < FAILURE_BYTES {
            Some(1026)
        } else if self.winners < WINNER_BYTES {
            Some(1027)
        } else {
            None
        }
    }
}

/// What accepted records have shown so far.
pub struct Seen {
    pub refusals: [u64; 28],
    /// Of refusal 1, by place.
    pub short: [u64; 4],
    pub cases: u64,
    /// By level, strain, doubling and vulnerability of declarer.
    pub contracts: Vec<u64>,
    pub revokes: [u64; MOST_REVOKES + 1],
    /// By the number of tricks that changed sides.
    pub changed: [u64; 14],
    /// By the number of plays against Laws 50C and 50D1.
    pub failures: [u64; FAILURE_BYTES / 2 + 1],
    /// By the number of complete tricks.
    pub tricks: [u64; WINNER_BYTES / 2 + 1],
}

impl Default for Seen {
    fn default() -> Self {
        Seen {
            refusals: [0; 28],
            short: [0; 4],
            cases: 0,
            contracts: vec![0; 7 * 5 * 3 * 2],
            revokes: [0; MOST_REVOKES + 1],
            changed: [0; 14],
            failures: [0; FAILURE_BYTES / 2 + 1],
            tricks: [0; WINNER_BYTES / 2 + 1],
        }
    }
}

pub struct Comparison {
    judge: Judge,
    sentinels: Vec<u8>,
    pub seen: Seen,
}

impl Comparison {
    pub fn new(judge: Judge, random: &mut Random) -> Self {
        Comparison { judge, sentinels: random.bytes(4096), seen: Seen::default() }
    }

    /// A buffer of random bytes, with such bytes on both sides.
    fn lent(&self, random: &mut Random, length: usize) -> Vec<u8> {
        let size = length + 2 * AROUND;
        let at = random.below(self.sentinels.len() - size);
        self.sentinels[at..at + size].to_vec()
    }

    /// The record at some address, between other bytes, which a judge that reads past its ends would see.
    fn given(&self, random: &mut Random, record: &[u8]) -> (Vec<u8>, usize) {
        let at = random.below(AROUND);
        let around = random.below(self.sentinels.len() - 2 * AROUND);
        let (front, back) = self.sentinels[around..around + 2 * AROUND].split_at(at);
        ([front, record, back].concat(), at)
    }

    /// Judges a record with both judges. `number` is what has to be returned, where it is known from how the record was made.
    pub fn case(&mut self, random: &mut Random, record: &[u8], room: Room, number: Option<u32>) -> Result<(), String> {
        let mut lent = [room.answer, room.list, room.failures, room.winners].map(|length| self.lent(random, length));
        let mut lent_due = lent.clone();
        let (given, at) = self.given(random, record);
        let before = given.clone();
        let own = match (room.refusal(), judge::read(record)) {
            (Some(refusal), _) | (None, Err(refusal)) => refusal,
            (None, Ok(judgement)) => {
                let written = [&judgement.answer[..], judgement.revokes(), &judgement.failures, judgement.winners()];
                for (buffer, bytes) in lent_due.iter_mut().zip(written) {
                    buffer[AROUND..][..bytes.len()].copy_from_slice(bytes);
                }
                self.seen.accepted(&judgement);
                0
            }
        };
        let [answer, list, failures, winners] = lent.each_mut().map(|buffer| {
            let end = buffer.len() - AROUND;
            &mut buffer[AROUND..end]
        });
        let returned = (self.judge)(&given[at..at + record.len()], &mut Lent { answer, list, failures, winners });
        let due = room.refusal().or(number).unwrap_or(own);
        if due != own {
            return Err(format!("the independent judge returns {own}, the record was made for {due}\n{}", shown(record, room)));
        }
        if returned != own {
            return Err(format!("returned {returned}, to be {own}\n{}", shown(record, room)));
        }
        if lent != lent_due || given != before {
            let names = ["answer", "list", "failures", "winners"];
            let each = names.iter().zip(lent.iter().zip(&lent_due));
            let bytes: String = each.map(|(name, (is, due))| format!("{name} {is:02x?}\n to be {due:02x?}\n")).collect();
            return Err(format!("returned {returned}, but other bytes\n{bytes}{}", shown(record, room)));
        }
        self.seen.note(own);
        Ok(())
    }
}

impl Seen {
    fn note(&mut self, number: u32) {
        self.cases += 1;
        self.refusals[(number / 1024) as usize] += 1;
        if number / 1024 == 1 {
            self.short[(number % 1024) as usize] += 1;
        }
    }

    fn accepted(&mut self, judgement: &Judgement) {
        let word = judgement.answer.iter().fold(0u64, |word, &byte| word << 8 | u64::from(byte));
        let part = |low: u32, width: u32| (word >> low) as usize & ((1 << width) - 1);
        let (board, level, strain, doubling, declarer) = (part(49, 7), part(37, 3), part(34, 3), part(32, 2), part(30, 2));
        self.revokes[part(16, 6)] += 1;
        self.tricks[judgement.winners().len() / 2] += 1;
        self.failures[judgement.failures.chunks(2).filter(|entry| entry[0] != 0).count()] += 1;
        self.changed[part(26, 4).abs_diff(part(22, 4))] += 1;
        if level > 0 {
            let vulnerable = usize::from(score::vulnerable(board as u8, declarer as u8));
            self.contracts[((level - 1) * 5 + strain) * 6 + doubling * 2 + vulnerable] += 1;
        }
    }
}

fn shown(record: &[u8], room: Room) -> String {
    let hex: String = record.iter().map(|byte| format!("{byte:02x}")).collect();
    format!("{room:?}, record of {}: {hex}", record.len())
}
