//! Compares the proved judge with the independent one on records with penalty cards, whole, damaged and random.
use outside::penalty_trial::PenaltyTrial;
use outside::proved;
use outside::run::{stop, Words};

fn main() {
    let words = Words::given();
    let mut trial = PenaltyTrial::new(proved::judge, words.seed());
    let limit = words.limit(400_000);
    while !limit.reached(trial.records()) {
        if let Err(difference) = trial.round() {
            stop(&format!("a difference after {} records: {difference}", trial.records()));
        }
    }
    println!("{}", trial.report());
    if limit.counted() {
        trial.enough().unwrap_or_else(|missing| stop(&missing));
    }
}
