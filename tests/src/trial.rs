//! Rounds of records of all shapes, whole, damaged and random, on which a judge is compared with the independent one.
use crate::auction::MARK;
use crate::compare::{Comparison, Judge, Room, Seen};
use crate::damage;
use crate::making::{self, Made};
use crate::random::Random;
use std::collections::BTreeSet;

/// Lawful records in a round, beside the damaged ones.
const LAWFUL: usize = 6;
/// One round in so many has its record ended at every byte, and lent buffers of every length up to the least that serve.
const EVERY_LENGTH: u64 = 100;
/// How often each refusal has to occur.
const LEAST: u64 = 100;

pub struct Trial {
    random: Random,
    comparison: Comparison,
    rounds: u64,
    /// The lengths of auctions without a mark, and of those with one.
    auctions: BTreeSet<usize>,
    marked: BTreeSet<usize>,
    /// Cards played, and tricks claimed of those left.
    claims: BTreeSet<(usize, u64)>,
    /// Revokes in a trick that a claim left unfinished.
    unfinished: u64,
}

impl Trial {
    pub fn new(judge: Judge, seed: u64) -> Self {
        let mut random = Random::new(seed);
        let comparison = Comparison::new(judge, &mut random);
        Trial { random, comparison, rounds: 0, auctions: BTreeSet::new(), marked: BTreeSet::new(), claims: BTreeSet::new(), unfinished: 0 }
    }

    /// The records compared so far.
    pub fn records(&self) -> u64 {
        self.comparison.seen.cases
    }

    /// One more round; the first difference, in words, where there is one.
    pub fn round(&mut self) -> Result<(), String> {
        let mut made: Vec<Made> = (0..LAWFUL).map(|_| making::lawful(&mut self.random)).collect();
        for m in &made {
            self.note(m);
            self.case(&m.parts.bytes(), Some(0))?;
        }
        let (other, first) = (made.pop().expect("a record"), &made[0]);
        let whole = first.parts.bytes();
        let room = Room::shorter(&mut self.random);
        self.comparison.case(&mut self.random, &whole, room, None)?;
        for kind in damage::KINDS {
            let damaged = made.iter().find_map(|m| damage::damaged(&mut self.random, m, kind));
            if let Some(d) = damaged {
                self.case(&d.bytes, d.number)?;
            }
        }
        for m in &made[1..4] {
            let bytes = damage::flipped(&mut self.random, &m.parts.bytes());
            self.case(&bytes, None)?;
        }
        for m in &made[..2] {
            let bytes = damage::mixed(&mut self.random, m, &other);
            self.case(&bytes, None)?;
        }
        let noise = damage::noise(&mut self.random, &whole);
        self.case(&noise, None)?;
        self.rounds += 1;
        if self.rounds % EVERY_LENGTH == 1 {
            self.every_length(&whole)?;
        }
        Ok(())
    }

    fn case(&mut self, record: &[u8], number: Option<u32>) -> Result<(), String> {
        let room = match self.random.below(20) {
            0 => Room::shorter(&mut self.random),
            1..=7 => Room::longer(&mut self.random),
            _ => Room::EXACT,
        };
        self.comparison.case(&mut self.random, record, room, number)
    }

    /// The record ended at every byte, and whole with every length of a buffer that is too short.
    fn every_length(&mut self, whole: &[u8]) -> Result<(), String> {
        for end in 0..whole.len() {
            self.comparison.case(&mut self.random, &whole[..end], Room::EXACT, Some(2 * 1024))?;
        }
        short_buffers(&mut self.comparison, &mut self.random, whole)
    }

    fn note(&mut self, made: &Made) {
        let lengths = if made.parts.calls.contains(&MARK) { &mut self.marked } else { &mut self.auctions };
        lengths.insert(made.parts.calls.len());
        if let Some(claim) = made.parts.claim {
            self.claims.insert((made.parts.cards.len(), claim));
            self.unfinished += unfinished_revokes(made);
        }
    }

    /// What occurred, in words.
    pub fn report(&self) -> String {
        let seen = &self.comparison.seen;
        [
            format!("{} records, no difference: {} accepted, refused by number:", seen.cases, seen.refusals[0]),
            counts(&seen.refusals[1..], 1),
            format!("buffers too short, by place:\n{}", counts(&seen.short, 0)),
            format!("revokes in accepted records:\n{}", counts(&seen.revokes, 0)),
            format!("tricks that changed sides:\n{}", counts(&seen.changed, 0)),
            format!("{} of {} contracts (level, strain, doubling, vulnerability)", contracts(seen), seen.contracts.len()),
            format!("{} of 316 lengths of auctions without a mark, {} of 506 with one", self.auctions.len(), self.marked.len()),
            format!("{} of 402 claims", self.claims.len()),
            format!("{} revokes in a trick that a claim left unfinished", self.unfinished),
        ]
        .join("\n")
    }

    /// Whether every kind of case has occurred, and each refusal often enough; what is missing, in words.
    pub fn enough(&self) -> Result<(), String> {
        let seen = &self.comparison.seen;
        if let Some(number) = (1..=16).chain([23, 24]).find(|&number| seen.refusals[number] < LEAST) {
            return Err(format!("refusal {number} occurred only {} times", seen.refusals[number]));
        }
        if let Some(place) = (0..4).find(|&place| seen.short[place] < LEAST) {
            return Err(format!("refusal 1 with place {place} occurred only {} times", seen.short[place]));
        }
        let lengths = self.auctions.len() == 316 && self.marked.len() == 506;
        let whole =
            contracts(seen) == seen.contracts.len() && self.claims.len() == 402 && self.unfinished >= LEAST && !seen.tricks.contains(&0);
        if !lengths || !whole || seen.revokes[0] == 0 || seen.revokes[36] == 0 || seen.changed[..4].contains(&0) {
            return Err("some contract, length of auction, claim or number of revokes never occurred".to_string());
        }
        Ok(())
    }
}

/// How many revokes a lawful record has in the trick after its last complete one.
fn unfinished_revokes(made: &Made) -> u64 {
    let Some(play) = made.position(made.parts.cards.len()) else { return 0 };
    let complete = play.winners().len();
    play.revokes().iter().filter(|&&r| usize::from(r >> 4) > complete).count() as u64
}

/// Every length of each buffer that is too short, beside others that are long enough.
pub fn short_buffers(comparison: &mut Comparison, random: &mut Random, whole: &[u8]) -> Result<(), String> {
    let answers = (0..7).map(|answer| (Room { answer, ..Room::EXACT }, 1024));
    let lists = (0..48).map(|list| (Room { list, ..Room::EXACT }, 1025));
    let failures = (0..52).map(|failures| (Room { failures, ..Room::EXACT }, 1026));
    let winners = (0..26).map(|winners| (Room { winners, ..Room::EXACT }, 1027));
    for (room, number) in answers.chain(lists).chain(failures).chain(winners) {
        comparison.case(random, whole, room, Some(number))?;
    }
    Ok(())
}

fn contracts(seen: &Seen) -> usize {
    seen.contracts.iter().filter(|&&n| n > 0).count()
}

/// Numbers with how often each occurred.
pub fn counts(numbers: &[u64], first: usize) -> String {
    let each = numbers.iter().enumerate().filter(|(_, &n)| n > 0);
    each.map(|(k, n)| format!("  {}: {n}", k + first)).collect()
}
