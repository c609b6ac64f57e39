//! The sheets of one board: scores read one a line, each with its count and its matchpoints or percentages.
use crate::score;
use crate::tally::{Tally, MOST_RESULTS};
use crate::tree::numbered;
use std::fmt::Write;

/// A line's score: `0`, or an optional minus, a digit 1 to 9 and at most three digits more, and a valid score.
fn score_of(line: &[u8]) -> Option<i32> {
    if line == b"0" {
        return Some(0);
    }
    let (sign, digits) = match line {
        [b'-', digits @ ..] => (-1, digits),
        digits => (1, digits),
    };
    let well_formed = matches!(digits, [b'1'..=b'9', rest @ ..] if rest.len() <= 3 && rest.iter().all(u8::is_ascii_digit));
    let score = digits.iter().fold(0, |n, d| 10 * n + i32::from(d.wrapping_sub(b'0')));
    (well_formed && score::valid(score)).then_some(sign * score)
}

/// The tally of an input's lines, all of one deal, or the number of the first line that is refused.
fn read(input: &[u8]) -> Result<Tally, usize> {
    let mut tally = Tally::fresh(1).expect("board 1 has a tally");
    let ended = input.strip_suffix(b"\n").unwrap_or(input);
    if !input.is_empty() {
        for (k, line) in ended.split(|&b| b == b'\n').enumerate() {
            let score = score_of(line).filter(|_| k < MOST_RESULTS).ok_or(k + 1)?;
            tally.add(score, &numbered(0)).expect("a valid score with room for it");
        }
    }
    Ok(tally)
}

/// A table with a row for each score, and for each side's matchpoints what they are shown as.
fn table(input: &[u8], header: &str, shown: impl Fn(u32, usize) -> String) -> String {
    let tally = match read(input) {
        Ok(tally) => tally,
        Err(line) => return format!("line {line} refused\n"),
    };
    let mut text = format!("{header}\n");
    for (score, count) in tally.entries() {
        let (ns, ew) = tally.matchpoints(score, &numbered(0)).expect("a score of the tally");
        let sides = [ns, ew].map(|points| shown(points, tally.results()));
        writeln!(text, "{score} {count} {} {}", sides[0], sides[1]).expect("a string takes any text");
    }
    text
}

/// What the program `sheet` writes for an input.
pub fn sheet(input: &[u8]) -> String {
    table(input, "NS-SCORE COUNT NS-MP EW-MP", |points, _| points.to_string())
}

/// Hundredths of a per cent, rounded half up from the exact fraction: half of the divisor or more left over rounds up. None where a result is alone.
pub fn hundredths(points: u32, results: usize) -> Option<u32> {
    if results == 1 {
        return None;
    }
    let most = 2 * (results as u32 - 1);
    let (whole, rest) = (10_000 * points / most, 10_000 * points % most);
    Some(whole + u32::from(2 * rest >= most))
}

/// A percentage to two decimals.
pub fn share(points: u32, results: usize) -> String {
    hundredths(points, results).map_or("ALONE".to_string(), |n| format!("{}.{:02}", n / 100, n % 100))
}

/// What the program `cells` writes for an input.
pub fn cells(input: &[u8]) -> String {
    table(input, "NS-SCORE COUNT NS-% EW-%", share)
}
