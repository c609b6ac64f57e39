//! Compares the proved program `tree` with the rules for trees in docs/RULES.md, on scripts of random trees; and its percentages, bit by bit, with one
//! division for every number of results.
use outside::random::Random;
use outside::run::{output_of, stop, Words};
use outside::scripts::Script;
use outside::tally::{Refusal, MOST_RESULTS};
use std::collections::BTreeMap;

/// How often each refusal, with its place, has to occur.
const LEAST: u64 = 100;
const REFUSALS: [Refusal; 8] = [(3, 0), (4, 1), (4, 4), (18, 0), (19, 0), (20, 0), (21, 0), (28, 0)];
/// Trees in a script of many.
const MANY: usize = 16;

fn main() {
    let words = Words::given();
    let mut random = Random::new(words.seed());
    let limit = words.limit(20_000);
    let program = words.text("--program").unwrap_or_else(|| stop("--program needs the path of the program tree"));
    (1..=MOST_RESULTS).for_each(|results| compare(program, &Script::of_cells(&mut random, results)));
    let (mut trees, mut runs, mut refusals) = (0, 0u64, BTreeMap::<Refusal, u64>::new());
    while !limit.reached(trees) {
        let (script, count) = match runs % 5 {
            0 | 1 => (Script::of_trees(&mut random, 1), 1),
            2 | 3 => (Script::of_trees(&mut random, MANY), MANY as u64),
            _ => (Script::that_stops(&mut random), 0),
        };
        compare(program, &script);
        for (&refusal, n) in &script.runner.refusals {
            *refusals.entry(refusal).or_default() += n;
        }
        runs += 1;
        trees += count;
    }
    let count = |refusal| refusals.get(&refusal).copied().unwrap_or(0);
    println!("{trees} trees in {runs} runs, no difference; refused by number and place:");
    println!("{}", REFUSALS.map(|(number, place)| format!("  {number}/{place}: {}", count((number, place)))).concat());
    if let Some(refusal) = REFUSALS.into_iter().find(|&refusal| limit.counted() && count(refusal) < LEAST) {
        stop(&format!("refusal {} with place {} occurred only {} times", refusal.0, refusal.1, count(refusal)));
    }
}

fn compare(program: &str, script: &Script) {
    let output = output_of(program, script.text.as_bytes());
    if output == script.runner.output.as_bytes() {
        return;
    }
    let text = String::from_utf8_lossy(&output).into_owned();
    let due = &script.runner.output;
    let line = text.lines().zip(due.lines()).take_while(|(a, b)| a == b).count();
    let lines = |t: &str| t.lines().nth(line).unwrap_or("nothing").to_string();
    stop(&format!("a difference in line {}: wrote {}, to be {}; the script:\n{}", line + 1, lines(&text), lines(due), script.text));
}
