//! Calls on tallies in bytes, on which a set of calls is compared with the independent one: the number, the lent buffer and the bytes around it.
use crate::random::Random;
use crate::tally_calls::{Calls, CALLS};
use crate::tally_cases::{Call, Cases, KINDS};
use std::collections::BTreeMap;

/// How often each refusal of each call has to occur.
const LEAST: u64 = 100;
/// New deals after so many calls.
const SAME_DEALS: u64 = 1_000;
/// Bytes on each side of a slice that no call may change.
const AROUND: usize = 24;
/// The calls by name, and the refusals of each, all with place 0 but for 4.
const NAMES: [&str; KINDS] = ["fresh", "add", "merge", "matchpoints", "award", "cell", "hundredths"];
const REFUSALS: [&[u32]; KINDS] = [&[1, 3], &[1, 4, 17, 19, 20, 28], &[1, 17, 18, 19, 28], &ASKED, &[1, 20], &ASKED, &ASKED];
/// The refusals where a score of a tally is asked about.
const ASKED: [u32; 6] = [1, 4, 17, 20, 21, 28];

pub struct TallyTrial {
    random: Random,
    calls: Calls,
    cases: Cases,
    made: u64,
    /// How often each call returned each refusal, 0 for none.
    returned: BTreeMap<(usize, u32), u64>,
}

impl TallyTrial {
    pub fn new(calls: Calls, seed: u64) -> Self {
        let mut random = Random::new(seed);
        let cases = Cases::new(&mut random);
        TallyTrial { random, calls, cases, made: 0, returned: BTreeMap::new() }
    }

    /// The calls compared so far.
    pub fn calls(&self) -> u64 {
        self.made
    }

    /// One more call; the difference, in words, where there is one.
    pub fn one(&mut self) -> Result<(), String> {
        if self.made % SAME_DEALS == 0 {
            self.cases = Cases::new(&mut self.random);
        }
        let call = self.cases.call(&mut self.random);
        let needs = call.needs();
        let room = match self.random.below(12) {
            0 => needs - 1,
            1 => self.random.below(needs),
            2..=4 => needs + self.random.between(1, 40),
            _ => needs,
        };
        let returned = self.compare(&call, room)?;
        *self.returned.entry((call.kind(), returned / 1024)).or_default() += 1;
        self.made += 1;
        Ok(())
    }

    /// One call by both, each slice between other bytes.
    fn compare(&mut self, call: &Call, room: usize) -> Result<u32, String> {
        let mut lent = self.random.bytes(room + 2 * AROUND);
        let mut due = lent.clone();
        let own = call.made_by(&CALLS, &mut due[AROUND..AROUND + room]);
        let given = call.parts().1.map(|slice| self.between(slice));
        let before = given.clone();
        let slices = [0, 1].map(|k| &given[k][AROUND..given[k].len() - AROUND]);
        let returned = call.made_on(slices, &self.calls, &mut lent[AROUND..AROUND + room]);
        let shown = || format!("a buffer of {room} bytes: {call:02x?}");
        if returned != own {
            return Err(format!("returned {returned}, to be {own}\n{}", shown()));
        }
        if lent != due {
            return Err(format!("returned {returned}, but other bytes\n{lent:02x?}\nto be\n{due:02x?}\n{}", shown()));
        }
        if given != before {
            return Err(format!("returned {returned}, and changed what it was given\n{}", shown()));
        }
        Ok(own)
    }

    fn between(&mut self, slice: &[u8]) -> Vec<u8> {
        [self.random.bytes(AROUND), slice.to_vec(), self.random.bytes(AROUND)].concat()
    }

    /// What occurred, in words.
    pub fn report(&self) -> String {
        let mut text = format!("{} calls on tallies in bytes, no difference; returned by call and refusal:", self.made);
        for (kind, name) in NAMES.iter().enumerate() {
            let each: Vec<String> =
                self.returned.iter().filter(|((k, _), _)| *k == kind).map(|((_, n), times)| format!("{n}: {times}")).collect();
            text += &format!("\n  {name}  {}", each.join("  "));
        }
        text
    }

    /// Whether each answer of each call occurred often enough.
    pub fn enough(&self) -> Result<(), String> {
        for (kind, refusals) in REFUSALS.iter().enumerate() {
            for &refusal in [0].iter().chain(*refusals) {
                let times = self.returned.get(&(kind, refusal)).copied().unwrap_or(0);
                if times < LEAST {
                    return Err(format!("{} returned refusal {refusal} only {times} times", NAMES[kind]));
                }
            }
        }
        Ok(())
    }
}
