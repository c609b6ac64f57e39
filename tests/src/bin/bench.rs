//! Times the proved judge and writer and the Rust ones on the same records in one run, and merges of tallies. docs/PERFORMANCE.md says what it measures.
use outside::compare::Judge;
use outside::contents::Contents;
use outside::judge::Least;
use outside::making::{self, Made};
use outside::random::Random;
use outside::run::{output_of, stop, Words};
use outside::tally::{Tally, TALLY_BYTES};
use outside::tree::numbered;
use outside::writer::Writer;
use outside::{judge, proved, proved_tally, tally_calls, writer};
use std::ffi::c_long;
use std::hint::black_box;

/// Records of a set: many enough that no branch is learnt by heart.
const RECORDS: usize = 5_000;
/// Each of two is timed so often, in turns; the figure is the middle one.
const TURNS: usize = 15;
/// Seconds of a turn.
const TURN: f64 = 0.15;

extern "C" {
    /// C's count of the processor time of this process, a million a second on Linux.
    fn clock() -> c_long;
}

/// Seconds of processor time of this process: other programs on a shared machine do not count.
fn own_seconds() -> f64 {
    unsafe { clock() as f64 / 1e6 }
}

/// Seconds of processor time of the programs that this one ran to their end: the 16th and 17th words of Linux's line on a process.
fn seconds_of_others() -> f64 {
    let line = std::fs::read_to_string("/proc/self/stat").unwrap_or_else(|e| stop(&format!("/proc/self/stat cannot be read: {e}")));
    let after_name = line.rsplit(')').next().unwrap_or_default();
    after_name.split_whitespace().skip(13).take(2).filter_map(|word| word.parse::<f64>().ok()).sum::<f64>() / 100.0
}

fn main() {
    let words = Words::given();
    let mut random = Random::new(words.number("--seed").unwrap_or(2017));
    println!("| records judged | proved, a second | Rust, a second | proved / Rust |");
    println!("|---|---|---|---|");
    judged("52 cards, 4 to 16 calls", &set(&mut random, |r| full(r, 4, 16)));
    judged("all shapes that are accepted", &set(&mut random, making::lawful));
    for calls in [4, 20, 80, 160, 319] {
        judged(&format!("52 cards, {calls} calls"), &set(&mut random, |r| full(r, calls, calls)));
    }
    for tricks in [1, 4, 8, 12] {
        let claim = |r: &mut Random| making::with_claim_after(r, tricks);
        judged(&format!("{} cards and a claim, 4 to 7 calls", 4 * tricks), &set(&mut random, claim));
    }
    judged("52 cards with penalty cards, 4 to 7 calls", &set(&mut random, making::full_with_codes));
    println!("\n| records written | proved, a second | Rust, a second | proved / Rust |");
    println!("|---|---|---|---|");
    written("52 cards, 4 to 16 calls", &set(&mut random, |r| full(r, 4, 16)));
    written("all shapes that are accepted", &set(&mut random, making::lawful));
    written("52 cards, 319 calls", &set(&mut random, |r| full(r, 319, 319)));
    written("52 cards with penalty cards, 4 to 7 calls", &set(&mut random, making::full_with_codes));
    written("4 cards and a claim, 4 to 7 calls", &set(&mut random, |r| making::with_claim_after(r, 1)));
    println!("\n| tallies merged in bytes | proved, a second | Rust, a second | proved / Rust |");
    println!("|---|---|---|---|");
    for results in [1, 8, 32, 64] {
        merged(&format!("results each: {results}, of any score"), &pairs(&mut random, results, 1521));
    }
    merged("results each: 64, of 16 scores", &pairs(&mut random, 64, 16));
    let program = words.text("--merges").unwrap_or_else(|| stop("--merges needs the path of the program try_merges"));
    merges(program);
}

fn full(random: &mut Random, least: usize, most: usize) -> Made {
    let calls = random.between(least, most);
    making::with_calls(random, calls)
}

fn set(random: &mut Random, make: impl Fn(&mut Random) -> Made) -> Vec<Made> {
    (0..RECORDS).map(|_| make(random)).collect()
}

/// Records judged a second by each judge.
fn judged(what: &str, made: &[Made]) {
    let records: Vec<Vec<u8>> = made.iter().map(|m| m.parts.bytes()).collect();
    line(what, [proved::judge as Judge, judge::judge], &records, |judge, record| {
        let mut least = Least::of(0);
        let number = black_box(judge)(black_box(record), black_box(&mut least.lend()));
        assert_eq!(number, 0, "a record that is accepted");
    });
}

/// Records written a second by each writer.
fn written(what: &str, made: &[Made]) {
    let contents: Vec<Contents> = made.iter().map(|m| Contents::of(&m.parts)).collect();
    line(what, [proved::write as Writer, writer::write], &contents, |write, contents| {
        let mut record = [0; 505];
        let number = black_box(write)(black_box(contents), black_box(&mut record));
        assert!(number < 1024, "contents that are written");
    });
}

/// Pairs of tallies in bytes, each of so many results whose scores are drawn from so many, all of one deal.
fn pairs(random: &mut Random, results: usize, scores: usize) -> Vec<[[u8; TALLY_BYTES]; 2]> {
    let mut one = || {
        let mut tally = Tally::fresh(1).expect("board 1 has a tally");
        for _ in 0..results {
            let score = 10 * (random.below(scores) as i32 - scores as i32 / 2);
            tally.add(score, &numbered(0)).expect("a valid score");
        }
        tally.bytes()
    };
    (0..RECORDS).map(|_| [one(), one()]).collect()
}

/// Merges a second through the archive and by the Rust calls, which read, check and write the same bytes.
fn merged(what: &str, pairs: &[[[u8; TALLY_BYTES]; 2]]) {
    type Merge = fn(&[u8], &[u8], &mut [u8]) -> u32;
    line(what, [proved_tally::merge as Merge, tally_calls::merge], pairs, |merge, [a, b]| {
        let mut out = [0; TALLY_BYTES];
        let number = black_box(merge)(black_box(a), black_box(b), black_box(&mut out));
        assert_eq!(number, 0, "tallies that are merged");
    });
}

/// Cases a second by the proved function and by the Rust one.
fn line<F: Copy, C>(what: &str, both: [F; 2], cases: &[C], one: impl Fn(F, &C)) {
    let mut rates = [Vec::new(), Vec::new()];
    for _ in 0..TURNS {
        for (rates, function) in rates.iter_mut().zip(both) {
            rates.push(rate(cases, |case| one(function, case)));
        }
    }
    let [proved, rust] = rates.map(middle);
    println!("| {what} | {proved:.0} | {rust:.0} | {:.2} |", proved / rust);
}

fn rate<C>(cases: &[C], one: impl Fn(&C)) -> f64 {
    let start = own_seconds();
    let mut done = 0;
    while own_seconds() - start < TURN {
        cases.iter().for_each(&one);
        done += cases.len();
    }
    done as f64 / (own_seconds() - start)
}

fn middle(mut figures: Vec<f64>) -> f64 {
    figures.sort_by(f64::total_cmp);
    figures[figures.len() / 2]
}

/// Bytes given to the program, which merges a thousand times for each.
const MERGE_BYTES: usize = 1_000;
const MERGES: usize = 1_000 * MERGE_BYTES;

/// 64 distinct scores on one deal, each 20 below the one before it.
fn filled(top: i32) -> Tally {
    let mut tally = Tally::fresh(1).expect("board 1 has a tally");
    for k in 0..64 {
        tally.add(top - 20 * k, &numbered(0)).expect("a valid score");
    }
    tally
}

/// Merges of two tallies of 64 results into one of 128.
fn merges(program: &str) {
    let (a, b) = (filled(1290), filled(1280));
    let timed = |seconds: fn() -> f64, work: &dyn Fn()| {
        let start = seconds();
        work();
        seconds() - start
    };
    let merge = |checked: bool| {
        for _ in 0..MERGES {
            let (a, b) = (black_box(&a), black_box(&b));
            assert!(!checked || (a.described() && b.described()), "a tally as docs/RULES.md describes it");
            black_box(a.merge(b)).expect("a merge that is accepted");
        }
    };
    let input = vec![0; MERGE_BYTES];
    let started = |input: &[u8]| timed(seconds_of_others, &|| drop(black_box(output_of(program, input))));
    let figures = |one: &dyn Fn() -> f64| middle((0..5).map(|_| one()).collect()) * 1e6 / MERGES as f64;
    let proved = figures(&|| started(&input) - started(&[]));
    let rust = figures(&|| timed(own_seconds, &|| merge(false)));
    let checked = figures(&|| timed(own_seconds, &|| merge(true)));
    println!("\n| merging two tallies of 64 results | microseconds | proved / this, in speed |\n|---|---|---|");
    println!("| proved, both tallies tested for 17 | {proved:.3} | 1 |");
    println!("| Rust, both tallies tested for 17 | {checked:.3} | {:.2} |", checked / proved);
    println!("| Rust, no test | {rust:.3} | {:.2} |", rust / proved);
}
