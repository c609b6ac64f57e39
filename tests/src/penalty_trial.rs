//! Rounds of records with penalty cards, whole, damaged and random, on which a judge is compared with the independent one.
use crate::compare::{Comparison, Judge, Room};
use crate::damage::{self, codes};
use crate::judge;
use crate::kinds::{Kinds, KINDS};
use crate::making::{self, Made};
use crate::random::Random;
use crate::trial::{counts, short_buffers};
use std::collections::BTreeMap;

/// Lawful records in a round, beside the damaged ones.
const LAWFUL: usize = 12;
/// One round in so many has its record ended at every byte, and lent buffers of every length up to the least that serve.
const EVERY_LENGTH: u64 = 100;
/// How often each kind and each refusal has to occur.
const LEAST: u64 = 100;

pub struct PenaltyTrial {
    random: Random,
    comparison: Comparison,
    rounds: u64,
    kinds: Kinds,
    /// Refusals of codes by their reason.
    refused: BTreeMap<&'static str, u64>,
}

impl PenaltyTrial {
    pub fn new(judge: Judge, seed: u64) -> Self {
        let mut random = Random::new(seed);
        let comparison = Comparison::new(judge, &mut random);
        let refused = codes::KINDS.iter().map(|&kind| (kind, 0)).collect();
        PenaltyTrial { random, comparison, rounds: 0, kinds: Kinds::default(), refused }
    }

    /// The records compared so far.
    pub fn records(&self) -> u64 {
        self.comparison.seen.cases
    }

    /// One more round; the first difference, in words, where there is one.
    pub fn round(&mut self) -> Result<(), String> {
        let made: Vec<Made> = (0..LAWFUL).map(|_| making::with_codes(&mut self.random)).collect();
        for m in &made {
            let bytes = m.parts.bytes();
            let changed = judge::read(&bytes).is_ok_and(|judgement| judgement.transferred());
            self.kinds.note(m, changed);
            self.case(&bytes, Some(0))?;
        }
        let whole = made[0].parts.bytes();
        let room = Room::shorter(&mut self.random);
        self.comparison.case(&mut self.random, &whole, room, None)?;
        for kind in codes::KINDS {
            if let Some(d) = made.iter().find_map(|m| codes::damaged(&mut self.random, m, kind)) {
                self.case(&d.bytes, d.number)?;
                *self.refused.entry(kind).or_default() += 1;
            }
        }
        for k in 0..4 {
            let kind = *self.random.pick(&damage::KINDS);
            if let Some(d) = damage::damaged(&mut self.random, &made[k], kind) {
                self.case(&d.bytes, d.number)?;
            }
            let flipped = codes::flipped(&mut self.random, &made[4 + k]);
            self.case(&flipped, None)?;
            let mixed = damage::mixed(&mut self.random, &made[k], &made[8 + k]);
            self.case(&mixed, None)?;
        }
        self.rounds += 1;
        if self.rounds % EVERY_LENGTH == 1 {
            for end in 0..whole.len() {
                self.comparison.case(&mut self.random, &whole[..end], Room::EXACT, Some(2 * 1024))?;
            }
            short_buffers(&mut self.comparison, &mut self.random, &whole)?;
        }
        Ok(())
    }

    fn case(&mut self, record: &[u8], number: Option<u32>) -> Result<(), String> {
        let room = match self.random.below(20) {
            0 => Room::shorter(&mut self.random),
            1..=7 => Room::longer(&mut self.random),
            _ => Room::EXACT,
        };
        self.comparison.case(&mut self.random, record, room, number)
    }

    /// What occurred, in words.
    pub fn report(&self) -> String {
        let seen = &self.comparison.seen;
        let each = |kinds: &BTreeMap<&'static str, u64>| kinds.iter().map(|(kind, n)| format!("  {n:>8} {kind}\n")).collect::<String>();
        [
            format!("{} records with penalty cards, no difference: {} accepted, refused by number:", seen.cases, seen.refusals[0]),
            counts(&seen.refusals[1..], 1),
            format!("revokes in accepted records:\n{}", counts(&seen.revokes, 0)),
            format!("plays against Laws 50C and 50D1 in accepted records:\n{}", counts(&seen.failures, 0)),
            format!("tricks that changed sides:\n{}", counts(&seen.changed, 0)),
            format!("what occurred in lawful records:\n{}refused for their codes:\n{}", each(&self.kinds.seen), each(&self.refused)),
        ]
        .join("\n")
    }

    /// Whether every kind of case and each refusal has occurred often enough; what is missing, in words.
    pub fn enough(&self) -> Result<(), String> {
        let seen = &self.comparison.seen;
        if let Some(number) = (1..=16).chain(23..=27).find(|&number| seen.refusals[number] < LEAST) {
            return Err(format!("refusal {number} occurred only {} times", seen.refusals[number]));
        }
        let rare = KINDS.iter().map(|&kind| (kind, self.kinds.seen[kind])).chain(self.refused.iter().map(|(&kind, &n)| (kind, n)));
        if let Some((kind, n)) = rare.into_iter().find(|&(_, n)| n < LEAST) {
            return Err(format!("{kind}: occurred only {n} times"));
        }
        if seen.revokes[48] < LEAST || seen.failures[24] < LEAST || seen.changed[..4].contains(&0) {
            return Err(
                "48 revokes, 24 plays against Law 50 or some number of tricks that change sides never occurred often enough".to_string()
            );
        }
        Ok(())
    }
}
