//! Compares the proved best play, by the archive and by the program `best`, with the independent one, on endings of every size and on records that are
//! refused.
use outside::best::{self, best, Ending, WRONG};
use outside::damage::{self, codes};
use outside::judge;
use outside::making::{self, Made};
use outside::proved;
use outside::random::Random;
use outside::run::{output_of, stop, Words};
use std::collections::BTreeMap;

/// How often each kind of ending and of refusal has to occur, and each wrong rule has to give another number; and how many endings there have to be in all.
const LEAST: u64 = 100;
const LEAST_ENDINGS: u64 = 20_000;
/// The refusals up to the last card.
const REFUSALS: [u32; 16] = [2, 3, 4, 5, 6, 7, 8, 9, 10, 11, 12, 23, 24, 25, 26, 27];
/// The causes of 31.
const NO_ENDING: [&str; 3] = ["passed out", "more than sixteen cards left", "not at a trick's end"];
/// Endings, the sum of all numbers of tricks.
const ALL: &str = "endings";
/// The program is run on one record of so many, if no other number is given, and one of so many has reached a squeeze.
const RUN: u64 = 40;
const SQUEEZE: u64 = 90;

fn main() {
    let words = Words::given();
    let mut random = Random::new(words.seed());
    let limit = words.limit(32_000);
    let program = words.text("--program").unwrap_or_else(|| stop("--program needs the path of the program best"));
    let run_each = words.number("--run-each").unwrap_or(RUN);
    let (mut records, mut kinds) = (0, kinds());
    while !limit.reached(records) {
        let record = record(&mut random, records);
        let due = compare(&record);
        if records % run_each == 0 {
            run(program, &record, due);
        }
        note(&mut kinds, &record, due);
        records += 1;
    }
    println!("{records} records, no difference; by kind:");
    println!("{}", kinds.iter().map(|(kind, n)| format!("  {kind}: {n}\n")).collect::<String>());
    let least = |kind: &str| if kind == ALL { LEAST_ENDINGS } else { LEAST };
    if let Some((kind, n)) = kinds.iter().find(|&(kind, &n)| limit.counted() && n < least(kind)) {
        stop(&format!("{kind} occurred only {n} times"));
    }
}

/// Answers by the tricks left, refusals, the cards' distribution, and the wrong rules that are told from the right ones.
fn kinds() -> BTreeMap<String, u64> {
    let answers = (0..=4).flat_map(|left| (0..=left).map(move |tricks| answered(tricks, left)));
    let refusals = REFUSALS.iter().map(|number| format!("refused {number:02}")).chain(NO_ENDING.map(no_ending));
    let others = [ALL, "nobody can follow", "a ruff", "to lead costs a trick", "declarer's side leads", "the defenders lead"].map(String::from);
    let wrong = WRONG.iter().map(|(name, _)| format!("another number if {name}"));
    answers.chain(refusals).chain(others).chain(wrong).map(|kind| (kind, 0)).collect()
}

fn answered(tricks: u32, left: u32) -> String {
    format!("{tricks} of {left} tricks")
}

fn no_ending(cause: &str) -> String {
    format!("refused 31: {cause}")
}

/// Why there is no ending after a record's last card.
fn cause(record: &[u8]) -> &'static str {
    match judge::to_last_card(record) {
        Ok(None) => NO_ENDING[0],
        Ok(Some((_, _, count))) if count < 36 => NO_ENDING[1],
        _ => NO_ENDING[2],
    }
}

fn note(kinds: &mut BTreeMap<String, u64>, record: &[u8], due: u32) {
    let mut count = |kind: String| *kinds.get_mut(&kind).unwrap_or_else(|| stop(&format!("no such kind: {kind}"))) += 1;
    let Ok(Some(ending)) = best::ending(record) else {
        return count(if due == best::NO_ENDING { no_ending(cause(record)) } else { format!("refused {:02}", due / 1024) });
    };
    let left = ending.tricks();
    count(answered(due, left));
    count(ALL.to_string());
    if left == 0 {
        return;
    }
    count(["declarer's side leads", "the defenders lead"][usize::from(ending.leader & 1 != ending.side)].to_string());
    if nobody_follows(&ending) {
        count("nobody can follow".to_string());
    }
    if can_ruff(&ending) {
        count("a ruff".to_string());
    }
    if left <= 3 {
        if ending.costs_to_lead() {
            count("to lead costs a trick".to_string());
        }
        for (name, _) in WRONG.iter().filter(|(_, rules)| ending.best(rules) != due) {
            count(format!("another number if {name}"));
        }
    }
}

fn suits_of(hand: u64) -> impl Iterator<Item = u64> {
    (0..4).filter(move |suit| hand >> (13 * suit) & 0x1FFF != 0)
}

/// Each seat has one suit, and no two the same.
fn nobody_follows(ending: &Ending) -> bool {
    let mut suits: Vec<u64> = ending.hands.iter().flat_map(|&hand| suits_of(hand)).collect();
    suits.sort_unstable();
    suits.len() == 4 && suits.windows(2).all(|pair| pair[0] != pair[1])
}

/// Some seat has a trump and no card of a suit that the leader has.
fn can_ruff(ending: &Ending) -> bool {
    let leads = ending.hands[usize::from(ending.leader)];
    let has = |hand: u64, suit: u64| suit < 4 && hand >> (13 * suit) & 0x1FFF != 0;
    (0..4).any(|seat| {
        has(ending.hands[seat], ending.strain) && suits_of(leads).any(|suit| suit != ending.strain && !has(ending.hands[seat], suit))
    })
}

fn compare(record: &[u8]) -> u32 {
    let (due, told) = (best(record), proved::best(record));
    if due != told {
        stop(&format!("a difference: {} {} to be {} {} for the record\n{}", told / 1024, told % 1024, due / 1024, due % 1024, hex(record)));
    }
    due
}

fn run(program: &str, record: &[u8], due: u32) {
    let text = if due < 1024 { format!("{due}\n") } else { format!("{} {}\n", due / 1024, due % 1024) };
    let output = output_of(program, record);
    if output != text.as_bytes() {
        stop(&format!("a difference: the program wrote\n{}to be\n{text}for the record\n{}", String::from_utf8_lossy(&output), hex(record)));
    }
}

fn hex(record: &[u8]) -> String {
    record.iter().map(|byte| format!("{byte:02X} ")).collect()
}

/// Two of three are endings, a fifth of them with penalty cards; the others are damaged, ended at a byte, of any shape, or have bytes behind them.
fn record(random: &mut Random, k: u64) -> Vec<u8> {
    if k % SQUEEZE == 0 {
        return making::squeezes::record(random).parts.bytes();
    }
    if k % 3 != 2 {
        return ending(random, k);
    }
    match k / 3 % 4 {
        0 => damaged(random, damage::KINDS[(k / 12) as usize % damage::KINDS.len()]),
        1 => damaged_code(random, codes::KINDS[(k / 12) as usize % codes::KINDS.len()]),
        2 => {
            let made = if random.percent(25) { making::passed_out(random) } else { making::lawful(random) };
            let mut bytes = made.parts.bytes();
            let more = random.between(1, 3000);
            bytes.extend(random.bytes(more));
            bytes
        }
        _ => {
            let mut bytes = ending(random, k);
            bytes.truncate(random.between(20, bytes.len()));
            bytes
        }
    }
}

/// An ending, mostly of one to three tricks, since trying every line of four takes a while.
fn ending(random: &mut Random, k: u64) -> Vec<u8> {
    let tricks = match random.below(200) {
        0..=8 => 9,
        9..=79 => 10,
        80..=159 => 11,
        160..=194 => 12,
        _ => 13,
    };
    after(random, k, tricks)
}

/// A record after so many tricks, one in five with penalty cards; what stands behind the last card is right, left out, or damaged.
fn after(random: &mut Random, k: u64, tricks: usize) -> Vec<u8> {
    let mut made = if k % 5 == 4 { coded(random, 4 * tricks) } else { making::with_claim_after(random, tricks) };
    match random.below(3) {
        0 => made.parts.claim = None,
        1 => made.parts.padding = random.below(256) as u8,
        _ => {}
    }
    made.parts.bytes()
}

/// A record with penalty cards that was ended after so many cards.
fn coded(random: &mut Random, count: usize) -> Made {
    let mut made = making::full_with_codes(random);
    made.parts.keep_cards(count);
    made
}

fn damaged(random: &mut Random, kind: u32) -> Vec<u8> {
    loop {
        let made = making::lawful(random);
        if let Some(damaged) = damage::damaged(random, &made, kind) {
            return damaged.bytes;
        }
    }
}

/// A record whose exposures and choices are damaged in this way.
fn damaged_code(random: &mut Random, kind: &str) -> Vec<u8> {
    loop {
        let made = if kind.starts_with("27") { making::with_most_codes(random) } else { making::with_codes(random) };
        if let Some(damaged) = codes::damaged(random, &made, kind) {
            return damaged.bytes;
        }
    }
}
