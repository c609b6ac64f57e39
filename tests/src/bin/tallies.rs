//! Compares the proved calls on tallies in bytes with the independent ones, through the archive: tallies that calls leave, forged bytes of every kind,
//! wrong lengths, holders and scores of all kinds, buffers of every length.
use outside::proved_tally;
use outside::run::{stop, Words};
use outside::tally_trial::TallyTrial;

fn main() {
    let words = Words::given();
    let mut trial = TallyTrial::new(proved_tally::CALLS, words.seed());
    let limit = words.limit(200_000);
    while !limit.reached(trial.calls()) {
        if let Err(difference) = trial.one() {
            stop(&format!("a difference after {} calls: {difference}", trial.calls()));
        }
    }
    println!("{}", trial.report());
    if limit.counted() {
        trial.enough().unwrap_or_else(|missing| stop(&missing));
    }
}
