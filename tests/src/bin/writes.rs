//! Compares the proved writer with the independent one on contents of all shapes, whole, damaged and with numbers that no field can hold.
use outside::proved;
use outside::run::{stop, Words};
use outside::write_trial::WriteTrial;

fn main() {
    let words = Words::given();
    let mut trial = WriteTrial::new(proved::write, proved::judge, words.seed());
    let limit = words.limit(300_000);
    while !limit.reached(trial.cases()) {
        if let Err(difference) = trial.round() {
            stop(&format!("a difference after {} contents: {difference}", trial.cases()));
        }
    }
    println!("{}", trial.report());
    if limit.counted() {
        trial.enough().unwrap_or_else(|missing| stop(&missing));
    }
}
