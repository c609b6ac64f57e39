//! Judges with one fault each in what they make of penalty cards, every one of which the comparison has to find.
use outside::compare::Judge;
use outside::judge::{judge, judge_by, Lent};
use outside::penalty::{Faced, Penalty, Rules, Turn, FORBID, RIGHT, TEN};
use outside::penalty_trial::PenaltyTrial;
use outside::play::{rank, suit};

/// Defines a judge by the rules that it has otherwise.
macro_rules! by {
    ($($field:ident: $value:expr),+) => {
        |record, lent| {
            static RULES: Rules = Rules { $($field: $value,)+ ..RIGHT };
            judge_by(&RULES, record, lent)
        }
    };
}

fn same_side(a: u8, b: u8) -> bool {
    (a ^ b) & 1 == 0
}

/// A single card that is left, below the ten, is minor.
fn falls_back(faced: &mut [Faced]) {
    for k in 0..faced.len() {
        let alone = faced.iter().filter(|f| f.owner == faced[k].owner).count() == 1;
        if alone && rank(faced[k].card) < TEN {
            faced[k].major = false;
        }
    }
}

/// Without Law 59: a requirement binds him who cannot meet it.
fn never_free(turn: &Turn, card: u64) -> bool {
    match (turn.led, turn.required) {
        (None, Some(required)) => suit(card) == required,
        _ => turn.obeys(card),
    }
}

/// Free of bans is only who has nothing but the one forbidden suit that he leads.
fn free_of_one_suit(turn: &Turn, card: u64) -> bool {
    let only = (0..4).all(|s| s == suit(card) || turn.hand >> (13 * s) & 0x1FFF == 0);
    match (turn.led, turn.required) {
        (None, None) => !turn.banned[suit(card) as usize] || only,
        _ => turn.obeys(card),
    }
}

/// Whether a card is among those that are faced.
fn among(faced: &[Faced], card: u64) -> bool {
    faced.iter().any(|f| f.card == card)
}

/// Law 50C, as far as the minor card itself would have been no revoke.
fn minor_card_first(turn: &Turn, faced: &[Faced], card: u64) -> bool {
    match faced {
        [minor] if !minor.major => turn.obeys(minor.card) && turn.against_law_50(faced, card),
        _ => turn.against_law_50(faced, card),
    }
}

/// Law 50C with the honours bound as well.
fn honours_bound(turn: &Turn, faced: &[Faced], card: u64) -> bool {
    match faced {
        [minor] if !minor.major => card != minor.card && suit(card) == suit(minor.card),
        _ => turn.against_law_50(faced, card),
    }
}

/// Whether the choice is open though a requirement was made, or a ban runs.
fn always_open(penalty: &Penalty, leader: u8, kind: u64, named: u64) -> bool {
    kind <= FORBID && penalty.faced().iter().any(|f| f.owner == leader ^ 2 && f.major && suit(f.card) == named)
}

/// Leaves the bytes behind the plays that are listed as they were.
fn not_zeroed(record: &[u8], lent: &mut Lent) -> u32 {
    let before = lent.failures.to_vec();
    let number = judge(record, lent);
    if number == 0 {
        let listed = 2 * lent.failures[..52].chunks(2).filter(|entry| entry[0] != 0).count();
        lent.failures[listed..].copy_from_slice(&before[listed..]);
    }
    number
}

/// Judges with one refusal given as another number at the same place.
fn renumbered(number: u32, from: u32, to: u32) -> u32 {
    if number / 1024 == from {
        to * 1024 + number % 1024
    } else {
        number
    }
}

const FAULTS: [(&str, Judge); 33] = [
    ("looks at a ban only on the lead where its code stands", by!(lasts: |_, _| false)),
    ("lets a ban outlive a trick won by the partner", by!(lasts: same_side)),
    ("lets a ban outlive every trick", by!(lasts: |_, _| true)),
    ("lets a requirement last", by!(requires_on: true)),
    ("picks up the leader's own cards too", by!(picks_up: same_side)),
    ("picks up the leader's own cards instead", by!(picks_up: |leader, owner| leader == owner)),
    ("picks up nothing", by!(picks_up: |_, _| false)),
    ("lets a card fall back from major to minor", by!(left: falls_back)),
    ("counts both defenders together", by!(together: |_, _| true)),
    ("never counts two", by!(together: |_, _| false)),
    ("takes the ten for a low card", by!(major: |card, deliberate| deliberate || rank(card) > TEN)),
    ("takes a nine for an honour", by!(major: |card, deliberate| deliberate || rank(card) + 1 >= TEN)),
    ("takes no account of what was deliberate", by!(major: |card, _| rank(card) >= TEN)),
    ("leaves every choice open", by!(open: always_open)),
    ("refuses to repeat a ban", by!(open: |p, leader, kind, named| p.open(leader, kind, named) && !p.banned()[named as usize & 3])),
    (
        "lets the leader's own card cause a choice",
        by!(open: |p, leader, kind, named| p.open(leader, kind, named) || p.open(leader ^ 2, kind, named)),
    ),
    ("binds a leader without the suit required", by!(obeys: never_free)),
    ("frees a leader of one forbidden suit only", by!(obeys: free_of_one_suit)),
    ("lists a required suit's revoke with the suit led", by!(listed_suit: |turn, card| turn.led.unwrap_or(suit(card)))),
    ("lets any faced card excuse", by!(excuses: |_, _| true)),
    ("lets no faced card excuse", by!(excuses: |_, _| false)),
    ("tests Law 50 after the card has left", by!(against: |_, after, faced, card| after.against_law_50(faced, card))),
    ("lists no revoke as against Law 50", by!(against: |turn, _, faced, card| turn.obeys(card) && turn.against_law_50(faced, card))),
    (
        "takes any faced card for the one that is due",
        by!(against: |turn, _, faced, card| turn.against_law_50(faced, card) && !among(faced, card)),
    ),
    ("lets Law 50C yield to a revoke of the minor card", by!(against: |turn, _, faced, card| minor_card_first(turn, faced, card))),
    ("binds honours by Law 50C", by!(against: |turn, _, faced, card| honours_bound(turn, faced, card))),
    ("gives 27 after its bits", by!(counts_first: false)),
    ("does not zero the fourth slice", not_zeroed),
    ("takes a fourth slice of 51", |record, lent| match lent.failures.len() {
        51 => judge(record, &mut Lent { answer: lent.answer, list: lent.list, failures: &mut [0; 52], winners: lent.winners }),
        _ => judge(record, lent),
    }),
    ("looks at the fourth slice before the third", |record, lent| match judge(record, lent) {
        1025 if lent.failures.len() < 52 => 1026,
        number => number,
    }),
    ("calls a faced card no such card", |record, lent| renumbered(judge(record, lent), 25, 11)),
    ("takes a choice that is not open for a bad exposure", |record, lent| renumbered(judge(record, lent), 26, 25)),
    ("leaves out the last of 48 revokes", |record, lent| {
        let last = lent.list.get(47).copied().unwrap_or(0);
        let number = judge(record, lent);
        if number == 0 && lent.answer[4] & 63 == 48 {
            lent.list[47] = last;
        }
        number
    }),
];

/// Records after which a fault must have been found: those of the gate.
const RECORDS: u64 = 400_000;

fn found(judge: Judge) -> bool {
    let mut trial = PenaltyTrial::new(judge, 64);
    while trial.records() < RECORDS {
        if trial.round().is_err() {
            return true;
        }
    }
    false
}

#[test]
fn every_fault_is_found() {
    for (fault, judge) in FAULTS {
        assert!(found(judge), "a judge that {fault} was not found out");
    }
}
