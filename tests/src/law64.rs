//! Law 64 as docs/RULES.md counts it.
use crate::play::MOST_REVOKES;

fn trick(revoke: u8) -> usize {
    usize::from(revoke >> 4)
}

fn seat(revoke: u8) -> u8 {
    revoke >> 2 & 3
}

/// The side of the revokes, 0 for NS, where only one side has revoked.
fn one_side(revokes: &[u8]) -> Option<u8> {
    let side = seat(*revokes.first()?) & 1;
    revokes.iter().all(|&r| seat(r) & 1 == side).then_some(side)
}

/// The tricks that change sides, and the side that loses them; `excused` has a bit for each revoke that Law 64B3 excuses, `claimed` the tricks
/// claimed for NS and EW.
pub fn transferred(revokes: &[u8], excused: u64, winners: &[u8], declarer: u8, claimed: [u8; 2]) -> Option<(u8, u8)> {
    let side = one_side(revokes)?;
    let mut due = [0; MOST_REVOKES];
    let mut before = 0u16;
    for (k, (due, &r)) in due.iter_mut().zip(revokes).enumerate() {
        let mark = 1 << (r & 15);
        let free = seat(r) == declarer ^ 2 || trick(r) == 12 || before & mark != 0 || excused >> k & 1 == 1;
        before |= mark;
        *due = match free {
            true => 0,
            // A trick that a claim left unfinished has no winner.
            false if winners.get(trick(r) - 1) == Some(&seat(r)) => 2,
            false => 1,
        };
    }
    let mut won = claimed[usize::from(side)];
    let mut next = winners.len();
    let mut total = 0;
    for (due, &r) in due.iter().zip(revokes).rev() {
        while next >= trick(r) {
            next -= 1;
            won += u8::from(winners[next] & 1 == side);
        }
        total = won.min(total + due);
    }
    Some((side, total))
}
