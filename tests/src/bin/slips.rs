//! Compares the proved program `slip`, and the slip that C asks for, with the independent ones, on records of all shapes, with penalty cards among them,
//! whole, damaged and with many bytes behind them.
use outside::damage::{self, codes};
use outside::making::{self, Made};
use outside::proved;
use outside::random::Random;
use outside::run::{output_of, stop, Words};
use outside::slip::{self, slip, Slip};
use std::collections::BTreeMap;

/// How often each kind of slip has to occur.
const LEAST: u64 = 20;
/// The kinds: an item of each name and for either side, a contract of either side, passed out, refused with each number of a record.
const ITEMS: [&str; 7] = ["TRICKS", "OVERTRICKS", "UNDERTRICKS", "PARTSCORE", "GAME", "SLAM", "DOUBLING"];

fn main() {
    let words = Words::given();
    let mut random = Random::new(words.seed());
    let limit = words.limit(10_000);
    let program = words.text("--program").unwrap_or_else(|| stop("--program needs the path of the program slip"));
    let (mut records, mut kinds, mut longest) = (0, kinds(), 0);
    while !limit.reached(records) {
        let record = record(&mut random, records);
        let due = slip(&record);
        compare(program, &record, &due);
        compare_call(&mut random, &record, due.text.len());
        note(&mut kinds, &due);
        longest = longest.max(if due.refused { 0 } else { due.text.len() });
        records += 1;
    }
    println!("{records} slips, no difference, the longest of {longest} bytes; by kind:");
    println!("{}", kinds.iter().map(|(kind, n)| format!("  {kind}: {n}")).collect::<String>());
    if let Some((kind, n)) = kinds.iter().find(|&(_, &n)| limit.counted() && n < LEAST) {
        stop(&format!("{kind} occurred only {n} times"));
    }
}

fn kinds() -> BTreeMap<String, u64> {
    let signed = |name: &&str| [format!("{name} +"), format!("{name} -")];
    let refusals = damage::KINDS.iter().chain(&[25, 26, 27]).map(|number| format!("refused {number:02}"));
    let others = ["NS", "EW", "passed out"].map(String::from);
    ITEMS.iter().flat_map(signed).chain(refusals).chain(others).map(|kind| (kind, 0)).collect()
}

fn note(kinds: &mut BTreeMap<String, u64>, due: &Slip) {
    let mut count = |kind: String| *kinds.get_mut(&kind).unwrap_or_else(|| stop(&format!("no such kind: {kind}"))) += 1;
    for (name, points) in &due.items {
        count(format!("{name} {}", if *points > 0 { '+' } else { '-' }));
    }
    match (due.refused, due.side) {
        (true, _) => count(format!("refused {:02}", number(&due.text))),
        (false, Some(side)) => count(["NS", "EW"][usize::from(side)].to_string()),
        (false, None) => count("passed out".to_string()),
    }
}

/// The number of a refusal's line.
fn number(text: &str) -> u32 {
    text.split(' ').next().and_then(|word| word.parse().ok()).unwrap_or_else(|| stop("a refusal without a number"))
}

fn compare(program: &str, record: &[u8], due: &Slip) {
    let output = output_of(program, record);
    if output != due.text.as_bytes() {
        let bytes: String = record.iter().map(|byte| format!("{byte:02X} ")).collect();
        stop(&format!("a difference: wrote\n{}to be\n{}for the record\n{bytes}", String::from_utf8_lossy(&output), due.text));
    }
}

/// The slip through the archive, in a buffer about its length or of any: the number, the buffer and the bytes around it.
fn compare_call(random: &mut Random, record: &[u8], length: usize) {
    const AROUND: usize = 16;
    let room = match random.below(4) {
        0 => length,
        1 => length - 1,
        2 => random.below(length),
        _ => length + random.below(80),
    };
    let mut lent = random.bytes(room + 2 * AROUND);
    let mut due = lent.clone();
    let own = slip::written(record, &mut due[AROUND..AROUND + room]);
    let number = proved::slip(record, &mut lent[AROUND..AROUND + room]);
    if (number, &lent) != (own, &due) {
        let bytes: String = record.iter().map(|byte| format!("{byte:02X} ")).collect();
        stop(&format!("judge_slip returned {number} with a buffer of {room}, to be {own}; wrote\n{lent:02x?}\nto be\n{due:02x?}\nfor the record\n{bytes}"));
    }
}

/// One in five has penalty cards. One in three is damaged in one of the ways that a refusal names; one in eight has many bytes behind it.
fn record(random: &mut Random, k: u64) -> Vec<u8> {
    if k % 15 == 14 {
        return damaged_code(random, codes::KINDS[(k / 15) as usize % codes::KINDS.len()]);
    }
    let coded = k % 5 == 4;
    let mut made: Vec<Made> = (0..8).map(|_| if coded { making::with_codes(random) } else { making::lawful(random) }).collect();
    if k % 3 == 2 {
        let kind = damage::KINDS[(k / 3) as usize % damage::KINDS.len()];
        if let Some(damaged) = made.iter().find_map(|m| damage::damaged(random, m, kind)) {
            return damaged.bytes;
        }
    }
    let mut bytes = made.pop().expect("a record").parts.bytes();
    if k % 8 == 7 {
        let more = random.between(1, 3000);
        bytes.extend(random.bytes(more));
    }
    bytes
}

/// A record whose exposures and choices are damaged in this way.
fn damaged_code(random: &mut Random, kind: &str) -> Vec<u8> {
    loop {
        let made = if kind.starts_with("27") { making::with_most_codes(random) } else { making::with_codes(random) };
        if let Some(damaged) = codes::damaged(random, &made, kind) {
            return damaged.bytes;
        }
    }
}
