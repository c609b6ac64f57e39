//! A comparison that cannot fail shows nothing: judges, team matches and trees with one fault each, every one of which it has to find.
use outside::compare::Judge;
use outside::judge::{judge, read, Lent};
use outside::play::suit;
use outside::random::Random;
use outside::reader::Reader;
use outside::scripts::Script as Calls;
use outside::tally::{deal_of, Deal, Refusal, MOST_RESULTS};
use outside::team::{imps, Match, Play, Written, MOST_BOARDS};
use outside::team_scripts::Script;
use outside::tree::{self, Rules, Runner, Tree};
use outside::trial::Trial;

const FAULTS: [(&str, Judge); 20] = [
    ("refuses all", |_, _| 2 * 1024),
    ("writes nothing", |record, lent| {
        let copy = |buffer: &[u8]| buffer.to_vec();
        let [mut answer, mut list, mut failures, mut winners] =
            [copy(lent.answer), copy(lent.list), copy(lent.failures), copy(lent.winners)];
        judge(record, &mut Lent { answer: &mut answer, list: &mut list, failures: &mut failures, winners: &mut winners })
    }),
    ("clears the answer on a refusal", |record, lent| {
        let number = judge(record, lent);
        if number != 0 {
            lent.answer.fill(0);
        }
        number
    }),
    ("clears the rest of the list", |record, lent| {
        let number = judge(record, lent);
        if number == 0 {
            lent.list[usize::from(lent.answer[4] & 63)..].fill(0);
        }
        number
    }),
    ("clears the byte after the answer", |record, lent| {
        let number = judge(record, lent);
        if number == 0 && lent.answer.len() > 7 {
            lent.answer[7] = 0;
        }
        number
    }),
    ("counts calls from 1", |record, lent| {
        let number = judge(record, lent);
        if number / 1024 == 6 {
            number + 1
        } else {
            number
        }
    }),
    ("calls a card played already one of another hand", |record, lent| match judge(record, lent) {
        number if number / 1024 == 23 => number - 11 * 1024,
        number => number,
    }),
    ("calls another's card that was played one's own", anothers_played),
    ("gives 24 at the code after the mark", |record, lent| match judge(record, lent) {
        number if number / 1024 == 24 => number + 1,
        number => number,
    }),
    ("takes a mark for no call", |record, lent| match judge(record, lent) {
        number if number / 1024 == 24 => number - 19 * 1024,
        number => number,
    }),
    ("lets one byte follow", |record, lent| match judge(record, lent) {
        number if number == 16 * 1024 => judge(&record[..record.len() - 1], lent),
        number => number,
    }),
    ("takes a list of 47", |record, lent| match lent.list.len() {
        47 => judge(record, &mut Lent { answer: lent.answer, list: &mut [0; 48], failures: lent.failures, winners: lent.winners }),
        _ => judge(record, lent),
    }),
    ("scores for declarer's side", |record, lent| {
        let number = judge(record, lent);
        if number == 0 && lent.answer[3] >> 6 & 1 == 1 {
            let score = -i16::from_be_bytes([lent.answer[5], lent.answer[6]]);
            lent.answer[5..7].copy_from_slice(&score.to_be_bytes());
        }
        number
    }),
    ("leaves out the last of 36 revokes", |record, lent| {
        let last = lent.list.get(35).copied().unwrap_or(0);
        let number = judge(record, lent);
        if number == 0 && lent.answer[4] & 63 == 36 {
            lent.list[35] = last;
        }
        number
    }),
    ("names the last card of a trick", |record, lent| named(record, lent, |cards, _| cards[3])),
    ("names the highest card of the suit led", |record, lent| {
        named(record, lent, |cards, _| *cards.iter().filter(|&&card| suit(card) == suit(cards[0])).max().expect("the card led"))
    }),
    ("names the second card of a trick that its leader won", |record, lent| {
        named(record, lent, |cards, won| if won == 0 { cards[1] } else { cards[won] })
    }),
    ("names the opening leader first", |record, lent| {
        let number = judge(record, lent);
        if number == 0 && read(record).is_ok_and(|judgement| !judgement.winners().is_empty()) {
            lent.winners[0] = ((lent.answer[3] >> 6) + 1) & 3;
        }
        number
    }),
    ("clears the bytes of tricks without four cards", |record, lent| {
        let number = judge(record, lent);
        if let (0, Ok(judgement)) = (number, read(record)) {
            lent.winners[judgement.winners().len()..26].fill(0);
        }
        number
    }),
    ("takes a fifth slice of 25", |record, lent| match lent.winners.len() {
        25 => judge(record, &mut Lent { answer: lent.answer, list: lent.list, failures: lent.failures, winners: &mut [0; 26] }),
        _ => judge(record, lent),
    }),
];

/// Judges, and names another card of each trick: `name` has its cards in order of play and the place of the one that won. Records with codes are left.
fn named(record: &[u8], lent: &mut Lent, name: fn(&[u64], usize) -> u64) -> u32 {
    let number = judge(record, lent);
    if number != 0 {
        return number;
    }
    let mut bits = Reader::new(record);
    let mut take = |width| bits.take(width).expect("a field of a record that is accepted");
    let (_, _, _) = (take(16), take(52), take(52));
    for _ in 0..take(9) {
        take(6);
    }
    let cards: Vec<u64> = (0..take(6)).map(|_| take(6)).collect();
    if cards.iter().all(|&card| card < 52) {
        for (trick, two) in cards.chunks_exact(4).zip(lent.winners.chunks_exact_mut(2)) {
            let won = trick.iter().position(|&card| card == u64::from(two[1])).expect("a card of the trick");
            two[1] = name(trick, won) as u8;
        }
    }
    number
}

/// Gives 23 for every card that has been played, whoever was dealt it.
fn anothers_played(record: &[u8], lent: &mut Lent) -> u32 {
    let number = judge(record, lent);
    if number / 1024 != 12 {
        return number;
    }
    let mut bits = Reader::new(record);
    let mut take = |width| bits.take(width).expect("a field of a record that was read up to a card");
    let (_, _, _) = (take(16), take(52), take(52));
    for _ in 0..take(9) {
        take(6);
    }
    take(6);
    let place = (number % 1024) as usize;
    let cards: Vec<u64> = (0..=place).map(|_| take(6)).collect();
    if cards.iter().any(|&number| number >= 52) {
        return number;
    }
    if cards[..place].contains(&cards[place]) {
        number + 11 * 1024
    } else {
        number
    }
}

/// Records after which a fault must have been found: those of the gate.
const RECORDS: u64 = 300_000;

fn found(judge: Judge) -> bool {
    let mut trial = Trial::new(judge, 64);
    while trial.records() < RECORDS {
        if trial.round().is_err() {
            return true;
        }
    }
    false
}

#[test]
fn every_fault_is_found() {
    for (fault, judge) in FAULTS {
        assert!(found(judge), "a judge that {fault} was not found out");
    }
}

const TEAM_FAULTS: [(&str, Play); 6] = [
    ("takes the second score less the first", |m, board, first, second| m.play(board, second, first)),
    ("takes a board twice", |m, board, first, second| {
        m.used.remove(&board);
        m.play(board, first, second)
    }),
    ("takes a 33rd board", |m, board, first, second| match m.play(board, first, second) {
        Err(30) => {
            m.total += imps(first, second);
            m.used.insert(board);
            Ok(imps(first, second))
        }
        answer => answer,
    }),
    ("looks at the board before the scores", |m, board, first, second| match m.used.contains(&board) || !(1..=127).contains(&board) {
        true => Err(29),
        false => m.play(board, first, second),
    }),
    ("looks for room before it looks at the board", |m, board, first, second| match m.play(board, first, second) {
        Err(29) if m.used.len() == MOST_BOARDS => Err(30),
        answer => answer,
    }),
    ("adds a refused board's IMPs to the total", |m, board, first, second| {
        let answer = m.play(board, first, second);
        if answer == Err(29) {
            m.total += imps(first, second);
        }
        answer
    }),
];

/// Team matches after which a fault must have been found: those of the gate.
const MATCHES: usize = 3_000;

#[test]
fn every_fault_of_a_team_match_is_found() {
    for (fault, play) in TEAM_FAULTS {
        let mut random = Random::new(64);
        let found = (0..MATCHES).any(|_| {
            let script = Script::of_boards(&mut random);
            Written::of(&script.lines, play).text != Written::of(&script.lines, Match::play).text
        });
        assert!(found, "a team match that {fault} was not found out");
    }
}

/// The rules with one of them replaced.
fn rules() -> Rules {
    Rules { held: false, ..Rules::default() }
}

/// 19 where the list has 128, before the deals are compared.
fn full_first(tree: &Tree, score: i32, deal: &Deal) -> Option<Refusal> {
    match tree::add(tree, score, deal) {
        Some((28, 0)) if tree.list.len() >= MOST_RESULTS => Some((19, 0)),
        answer => answer,
    }
}

/// Two lists have results whose deals differ in a part of the cards.
fn differ(first: &Tree, second: &Tree, cards: std::ops::Range<usize>) -> bool {
    first.list.iter().any(|(_, deal)| second.list.iter().any(|(_, other)| deal[cards.clone()] != other[cards.clone()]))
}

/// What a merge is refused with but for its deals.
fn without_deals(first: &Tree, second: &Tree) -> Option<Refusal> {
    match first.board == second.board {
        false => Some((18, 0)),
        true => (first.list.len() + second.list.len() > MOST_RESULTS).then_some((19, 0)),
    }
}

fn tree_faults() -> [(&'static str, Rules); 7] {
    [
        ("merges without a look at the deals", Rules { merge: without_deals, ..rules() }),
        (
            "compares the first 26 cards in a merge",
            Rules {
                merge: |first, second| match tree::merge(first, second) {
                    Some((28, 0)) if !differ(first, second, 0..26) => without_deals(first, second),
                    answer => answer,
                },
                ..rules()
            },
        ),
        ("looks for room before it compares the deals of a result", Rules { add: full_first, ..rules() }),
        (
            "looks for room before it compares the deals of a merge",
            Rules {
                merge: |first, second| match tree::merge(first, second) {
                    Some((28, 0)) => without_deals(first, second).or(Some((28, 0))),
                    answer => answer,
                },
                ..rules()
            },
        ),
        (
            "looks at the deal before the score",
            Rules { add: |tree, score, deal| deal_of(deal).err().or_else(|| tree::add(tree, score, deal)), ..rules() },
        ),
        (
            "asks about a score of another deal",
            Rules { given: |tree, score, deal| tree::given(tree, score, deal).filter(|&refusal| refusal != (28, 0)), ..rules() },
        ),
        ("tells no place", Rules { add: |tree, score, deal| tree::add(tree, score, deal).map(|(number, _)| (number, 0)), ..rules() }),
    ]
}

/// Scripts of trees after which a fault must have been found: fewer than the gate's.
const SCRIPTS: usize = 2_000;

#[test]
fn every_fault_of_a_tree_is_found() {
    for (fault, rules) in tree_faults() {
        let mut random = Random::new(64);
        let found = (0..SCRIPTS).any(|_| {
            let script = Calls::of_trees(&mut random, 1);
            let mut runner = Runner::by(rules);
            script.calls.iter().for_each(|&call| runner.call(call));
            runner.finish();
            runner.output != script.runner.output
        });
        assert!(found, "a tree that {fault} was not found out");
    }
}
