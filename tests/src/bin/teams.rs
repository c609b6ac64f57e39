//! Compares the proved program `team` with the rules for team matches in docs/RULES.md, on random runs.
use outside::random::Random;
use outside::run::{output_of, stop, Words};
use outside::team::{Match, Written, REFUSALS};
use outside::team_scripts::Script;

/// How often each refusal has to occur.
const LEAST: u64 = 100;

fn main() {
    let words = Words::given();
    let mut random = Random::new(words.seed());
    let limit = words.limit(3_000);
    let program = words.text("--program").unwrap_or_else(|| stop("--program needs the path of the program team"));
    let (mut runs, mut stopped, mut refusals) = (0, 0, [0; REFUSALS.len()]);
    while !limit.reached(runs) {
        let stops = runs % 5 == 4;
        let script = if stops { Script::that_stops(&mut random) } else { Script::of_boards(&mut random) }.end(&mut random);
        let due = Written::of(&script.lines, Match::play);
        compare(program, &script, &due);
        for (sum, n) in refusals.iter_mut().zip(due.refusals) {
            *sum += n;
        }
        runs += 1;
        stopped += u64::from(stops);
    }
    println!("{runs} team matches, {stopped} of them up to a line that cannot be read, no difference; refused by number:");
    println!("{}", REFUSALS.iter().zip(refusals).map(|(name, n)| format!("  {name}: {n}")).collect::<String>());
    if let Some(k) = (0..REFUSALS.len()).find(|&k| limit.counted() && refusals[k] < LEAST) {
        stop(&format!("refusal {} occurred only {} times", REFUSALS[k], refusals[k]));
    }
}

fn compare(program: &str, script: &Script, due: &Written) {
    let output = output_of(program, script.text.as_bytes());
    if output == due.text.as_bytes() {
        return;
    }
    let text = String::from_utf8_lossy(&output).into_owned();
    let line = text.lines().zip(due.text.lines()).take_while(|(a, b)| a == b).count();
    let lines = |t: &str| t.lines().nth(line).unwrap_or("nothing").to_string();
    stop(&format!("a difference in line {}: wrote {}, to be {}; the input:\n{}", line + 1, lines(&text), lines(&due.text), script.text));
}
