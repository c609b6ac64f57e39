//! Deal lines that are not those of the subset, in each way that one can be wrong.
use crate::random::Random;

/// One way to spoil a Deal line: its name, and what does it; false where this deal cannot be spoilt so.
pub struct Kind {
    pub name: &'static str,
    spoil: fn(&mut Random, &mut Value) -> bool,
}

/// What stands in the tag's quotation marks: a seat, what stands behind it, and hands of suits.
struct Value {
    seat: String,
    colon: String,
    hands: Vec<Vec<String>>,
    /// Between two hands.
    between: Vec<&'static str>,
}

pub const KINDS: [Kind; 17] = [
    Kind { name: "Deal: a card twice, none missing", spoil: card_twice },
    Kind { name: "Deal: a card twice, another missing", spoil: card_for_another },
    Kind { name: "Deal: a card twice in its suit", spoil: card_doubled },
    Kind { name: "Deal: a card missing", spoil: card_missing },
    Kind { name: "Deal: not highest first", spoil: not_highest_first },
    Kind { name: "Deal: 10 for the ten", spoil: ten_in_digits },
    Kind { name: "Deal: - for a void or a hand", spoil: dash },
    Kind { name: "Deal: two spaces or a tab", spoil: other_space },
    Kind { name: "Deal: three hands", spoil: three_hands },
    Kind { name: "Deal: five hands", spoil: five_hands },
    Kind { name: "Deal: four dots in a hand", spoil: four_dots },
    Kind { name: "Deal: two dots in a hand", spoil: two_dots },
    Kind { name: "Deal: a small letter", spoil: small_letter },
    Kind { name: "Deal: no such rank", spoil: no_rank },
    Kind { name: "Deal: no such seat", spoil: no_seat },
    Kind { name: "Deal: no colon", spoil: no_colon },
    Kind { name: "Deal: other suits' order", spoil: other_order },
];

const FRONT: &str = "[Deal \"";
const BACK: &str = "\"]";
const RANKS: &str = "AKQJT98765432";

/// A right Deal line spoilt, nothing where it cannot be so.
pub fn spoilt(random: &mut Random, line: &str, kind: &Kind) -> Option<String> {
    let value = line.strip_prefix(FRONT)?.strip_suffix(BACK)?;
    let (seat, hands) = value.split_once(':')?;
    let suits = |hand: &str| hand.split('.').map(String::from).collect();
    let mut value =
        Value { seat: seat.to_string(), colon: ":".to_string(), hands: hands.split(' ').map(suits).collect(), between: vec![" "; 3] };
    (kind.spoil)(random, &mut value).then(|| format!("{FRONT}{}{BACK}", value.text()))
}

impl Value {
    fn text(&self) -> String {
        let hands = self.hands.iter().map(|suits| suits.join("."));
        let between = self.between.iter().copied().chain([" "; 2]);
        let row: String = [""].into_iter().chain(between).zip(hands).map(|(space, hand)| format!("{space}{hand}")).collect();
        format!("{}{}{row}", self.seat, self.colon)
    }

    /// A hand and a suit of at least so many cards.
    fn some_suit(&self, random: &mut Random, least: usize) -> (usize, usize) {
        let long = |&(hand, suit): &(usize, usize)| self.hands[hand][suit].len() >= least;
        let all: Vec<(usize, usize)> = (0..16).map(|k| (k / 4, k % 4)).filter(long).collect();
        *random.pick(&all)
    }

    /// Takes a letter out of a suit.
    fn take(&mut self, random: &mut Random, hand: usize, suit: usize) -> char {
        let at = random.below(self.hands[hand][suit].len());
        self.hands[hand][suit].remove(at)
    }

    /// Puts a letter where it belongs in a suit.
    fn put(&mut self, hand: usize, suit: usize, letter: char) {
        let cards = &mut self.hands[hand][suit];
        let at = cards.find(|other| RANKS.find(other) > RANKS.find(letter)).unwrap_or(cards.len());
        cards.insert(at, letter);
    }
}

/// A card stands in a second hand too.
fn card_twice(random: &mut Random, value: &mut Value) -> bool {
    let (hand, suit) = value.some_suit(random, 1);
    let letter = value.take(random, hand, suit);
    value.put(hand, suit, letter);
    value.put((hand + random.between(1, 3)) % 4, suit, letter);
    true
}

/// A card stands in a second hand too, in the place of another of that suit.
fn card_for_another(random: &mut Random, value: &mut Value) -> bool {
    let (hand, suit) = value.some_suit(random, 1);
    let others: Vec<usize> = (0..4).filter(|&other| other != hand && !value.hands[other][suit].is_empty()).collect();
    if others.is_empty() {
        return false;
    }
    let other = *random.pick(&others);
    value.take(random, other, suit);
    let letter = value.take(random, hand, suit);
    value.put(hand, suit, letter);
    value.put(other, suit, letter);
    true
}

fn card_doubled(random: &mut Random, value: &mut Value) -> bool {
    let (hand, suit) = value.some_suit(random, 1);
    let letter = value.take(random, hand, suit);
    value.put(hand, suit, letter);
    value.put(hand, suit, letter);
    true
}

fn card_missing(random: &mut Random, value: &mut Value) -> bool {
    let (hand, suit) = value.some_suit(random, 1);
    value.take(random, hand, suit);
    true
}

fn not_highest_first(random: &mut Random, value: &mut Value) -> bool {
    let (hand, suit) = value.some_suit(random, 2);
    let cards = &mut value.hands[hand][suit];
    let mut letters: Vec<char> = cards.chars().collect();
    let at = random.below(letters.len() - 1);
    letters.swap(at, at + 1);
    *cards = letters.into_iter().collect();
    true
}

fn ten_in_digits(_: &mut Random, value: &mut Value) -> bool {
    value.hands.iter_mut().flatten().for_each(|cards| *cards = cards.replace('T', "10"));
    true
}

fn dash(random: &mut Random, value: &mut Value) -> bool {
    match value.hands.iter_mut().flatten().find(|cards| cards.is_empty()) {
        Some(void) if random.percent(70) => *void = "-".to_string(),
        _ => value.hands[random.below(4)] = vec!["-".to_string()],
    }
    true
}

fn other_space(random: &mut Random, value: &mut Value) -> bool {
    value.between[random.below(3)] = *random.pick(&["  ", "\t", "", " \t"]);
    true
}

fn three_hands(random: &mut Random, value: &mut Value) -> bool {
    value.hands.remove(random.below(4));
    true
}

fn five_hands(random: &mut Random, value: &mut Value) -> bool {
    let hand = *random.pick(&["-", "...", "A..."]);
    value.hands.push(vec![hand.to_string()]);
    true
}

fn four_dots(random: &mut Random, value: &mut Value) -> bool {
    let at = random.below(5);
    value.hands[random.below(4)].insert(at, String::new());
    true
}

fn two_dots(random: &mut Random, value: &mut Value) -> bool {
    let hand = random.below(4);
    let suit = random.between(1, 3);
    let cards = value.hands[hand].remove(suit);
    value.hands[hand][suit - 1] += &cards;
    true
}

fn small_letter(random: &mut Random, value: &mut Value) -> bool {
    let cards = &mut value.hands[random.below(4)];
    let small: Vec<String> = cards.iter().map(|suit| suit.to_lowercase()).collect();
    let any = small != *cards;
    *cards = small;
    any
}

fn no_rank(random: &mut Random, value: &mut Value) -> bool {
    let (hand, suit) = value.some_suit(random, 1);
    value.take(random, hand, suit);
    value.hands[hand][suit].push(*random.pick(&['1', '0', 'X', 'B', 'S', 'N', ':', '!']));
    true
}

fn no_seat(random: &mut Random, value: &mut Value) -> bool {
    value.seat = random.pick(&["n", "w", "", "X", "NE", "0", " N", "North"]).to_string();
    true
}

fn no_colon(random: &mut Random, value: &mut Value) -> bool {
    value.colon = random.pick(&["", " ", ";", "::", ": ", " :"]).to_string();
    true
}

/// One hand with its clubs first; that names other cards, and some of them twice where the spades are then not thirteen.
fn other_order(_: &mut Random, value: &mut Value) -> bool {
    value.hands[0].reverse();
    let spades: usize = value.hands.iter().map(|suits| suits[0].len()).sum();
    spades != 13
}
