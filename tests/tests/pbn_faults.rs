//! A comparison that cannot fail shows nothing: readers of Portable Bridge Notation with one fault each, every one of which it has to find.
use outside::auction::{Auction, Contract};
use outside::judge::judge;
use outside::pbn::{game, order, read, words, Game, PbnReader, OUTSIDE};
use outside::pbn_trial::PbnTrial;
use outside::score::dealer;
use outside::writer;

fn refused(number: u32, place: usize) -> u32 {
    number * 1024 + place as u32
}

/// Reads the game of a text with something changed, and every other text as it is.
fn changed(text: &[u8], table: u32, record: &mut [u8], change: impl Fn(&mut Game)) -> u32 {
    match game(text) {
        Ok(mut game) => {
            change(&mut game);
            read(&game.text(), table, record)
        }
        Err(_) => read(text, table, record),
    }
}

/// Gives a refusal of a game before all others where it is due.
fn before_all(text: &[u8], table: u32, record: &mut [u8], first: impl Fn(&Game) -> Option<u32>) -> u32 {
    game(text).ok().and_then(|game| first(&game)).unwrap_or_else(|| read(text, table, record))
}

/// Gives another number for some that the right reader gives for a game.
fn in_place_of(text: &[u8], table: u32, record: &mut [u8], other: impl Fn(u32, &Game) -> Option<u32>) -> u32 {
    let number = read(text, table, record);
    game(text).ok().and_then(|game| other(number, &game)).unwrap_or(number)
}

/// The contract of a board from 1 to 127 whose auction is lawful.
fn contract(game: &Game) -> Option<Contract> {
    let mut auction = Auction::new(dealer(u8::try_from(game.board).ok()?));
    for &code in &game.calls {
        auction.call(u64::from(code)).ok()?;
    }
    auction.contract()
}

fn listed(game: &Game) -> &[u8] {
    game.play.as_ref().map_or(&[], |play| &play.cards)
}

fn another_dealer(game: &Game) -> bool {
    (game.board - 1) % 4 != u32::from(game.auction)
}

fn cards_of(game: &Game, seat: u8) -> usize {
    game.holders.iter().filter(|&&holder| holder == seat).count()
}

fn lines(text: &[u8]) -> Vec<&[u8]> {
    text.split(|&byte| byte == b'\n').collect()
}

/// How many calls a line has, nothing where it is no line of calls.
fn calls_in(line: &[u8]) -> Option<usize> {
    let words: Vec<&[u8]> = line.split(|&byte| byte == b' ').collect();
    (words.len() <= 4 && words.iter().all(|word| words::call(word).is_some())).then_some(words.len())
}

/// The text with each word of its lines made another.
fn each_word(text: &[u8], other: fn(&str) -> String) -> Vec<u8> {
    let text = String::from_utf8_lossy(text);
    let line = |line: &str| line.split(' ').map(other).collect::<Vec<_>>().join(" ");
    text.split('\n').map(line).collect::<Vec<_>>().join("\n").into_bytes()
}

/// The record of a game whose dealer is the Auction tag's: that of a board with this dealer, with its own number put in.
fn dealer_of_tag(game: &Game, table: u32, record: &mut [u8]) -> Option<u32> {
    let same_dealer = ((game.board - 1) & !3) + u32::from(game.auction) + 1;
    if game.board > 127 || same_dealer > 127 {
        return None;
    }
    let number = read(&Game { board: same_dealer, ..game.clone() }.text(), table, record);
    if number < 1024 {
        record[0] = (game.board << 1) as u8 | record[0] & 1;
    }
    Some(number)
}

const FAULTS: [(&str, PbnReader); 31] = [
    ("gives North the first hand", |text, table, record| {
        changed(text, table, record, |game| {
            game.holders.iter_mut().for_each(|holder| *holder = (*holder + 4 - game.first) & 3);
            game.first = 0;
        })
    }),
    ("takes columns for the order of play", |text, table, record| {
        changed(text, table, record, |game| {
            if let (Some(contract), Some(play)) = (contract(game), &mut game.play) {
                play.cards = order::listed(&play.cards, contract.strain);
            }
        })
    }),
    ("follows winners as if there were no trumps", |text, table, record| {
        changed(text, table, record, |game| {
            if let (Some(contract), Some(play)) = (contract(game), &mut game.play) {
                play.cards = order::listed(&order::played(&play.cards, 4), contract.strain);
            }
        })
    }),
    ("looks at the dealer before 3", |text, table, record| {
        before_all(text, table, record, |game| another_dealer(game).then(|| refused(OUTSIDE, 3)))
    }),
    ("looks at the dealer after 4", |text, table, record| {
        in_place_of(text, table, record, |number, game| {
            let seat = (0..4).find(|&seat| cards_of(game, seat) != 13)?;
            (number == refused(OUTSIDE, 3)).then(|| refused(4, usize::from(seat)))
        })
    }),
    ("takes the dealer from the tag", |text, table, record| {
        game(text).ok().and_then(|game| dealer_of_tag(&game, table, record)).unwrap_or_else(|| read(text, table, record))
    }),
    ("does not look at the dealer's tag", |text, table, record| {
        changed(text, table, record, |game| game.auction = ((game.board - 1) % 4) as u8)
    }),
    ("refuses a short line of calls at itself", |text, table, record| {
        let (number, lines) = (read(text, table, record), lines(text));
        let line = |place: u32| lines.get(place as usize - 1).and_then(|line| calls_in(line));
        match number / 1024 {
            OUTSIDE if number % 1024 > 4 && line(number % 1024 - 1).is_some_and(|calls| calls < 4) && line(number % 1024).is_some() => {
                number - 1
            }
            _ => number,
        }
    }),
    ("takes a last line without its newline", |text, table, record| match text {
        [.., b'\n'] | [] => read(text, table, record),
        _ => read(&[text, b"\n"].concat(), table, record),
    }),
    ("takes an empty line behind the end", |text, table, record| {
        read(text.strip_suffix(b"\n\n").map(|text| [text, b"\n"].concat()).as_deref().unwrap_or(text), table, record)
    }),
    ("counts the place of 12 along the lines", |text, table, record| {
        in_place_of(text, table, record, |number, game| {
            let strain = contract(game)?.strain;
            (number / 1024 == 12).then(|| refused(12, order::places(listed(game), strain)[number as usize % 1024]))
        })
    }),
    ("counts the place of 23 along the lines", |text, table, record| {
        in_place_of(text, table, record, |number, game| {
            let strain = contract(game)?.strain;
            (number / 1024 == 23).then(|| refused(23, order::places(listed(game), strain)[number as usize % 1024]))
        })
    }),
    ("takes the leader from the tag", |text, table, record| {
        changed(text, table, record, |game| {
            if let (Some(contract), Some(play)) = (contract(game), &mut game.play) {
                play.seat = (contract.declarer + 1) & 3;
            }
        })
    }),
    ("leaves out Play where the board was passed out", |text, table, record| {
        changed(text, table, record, |game| {
            if game.calls == [0; 4] {
                game.play = None;
            }
        })
    }),
    ("asks for Play before the calls are looked at", |text, table, record| {
        in_place_of(text, table, record, |number, game| {
            let bid = game.calls.iter().any(|&code| code > 2);
            (bid && game.play.is_none() && (6..10).contains(&(number / 1024))).then(|| refused(OUTSIDE, game.line_after_calls()))
        })
    }),
    ("asks for Play before the calls are counted", |text, table, record| {
        in_place_of(text, table, record, |number, game| {
            (number / 1024 == 33 && game.play.is_none()).then(|| refused(OUTSIDE, game.line_after_calls().min(1023)))
        })
    }),
    ("gives Play's place as the tag's own where it is missing, a line later", |text, table, record| {
        in_place_of(text, table, record, |number, game| {
            (game.play.is_none() && number == refused(OUTSIDE, game.line_after_calls())).then_some(number + 1)
        })
    }),
    ("says 33 before 32", |text, table, record| {
        let number = read(text, table, record);
        let calls: usize = lines(text).iter().skip(3).map_while(|line| calls_in(line)).sum();
        if number / 1024 == OUTSIDE && calls > 511 {
            refused(33, 511)
        } else {
            number
        }
    }),
    ("looks at 511 calls before it counts them", |text, table, record| {
        in_place_of(text, table, record, |number, game| {
            let calls = game.calls.get(..511)?.to_vec();
            (number / 1024 == 33).then(|| read(&Game { calls, ..game.clone() }.text(), table, &mut []))
        })
    }),
    ("looks at the room first", |text, table, record| {
        let room = record.len();
        before_all(text, table, record, |game| {
            let strain = contract(game).map_or(4, |contract| contract.strain);
            (room < writer::length(&game.contents(table, strain))).then(|| refused(22, 0))
        })
    }),
    ("counts the seats from the tag's", |text, table, record| {
        in_place_of(text, table, record, |number, game| {
            let seat = (0..4).map(|k| (game.first + k) & 3).find(|&seat| cards_of(game, seat) != 13)?;
            (number / 1024 == 4).then(|| refused(4, usize::from(seat)))
        })
    }),
    ("asks for thirteen cards in the subset", |text, table, record| {
        before_all(text, table, record, |game| (0..4).any(|seat| cards_of(game, seat) != 13).then(|| refused(OUTSIDE, 2)))
    }),
    ("ends the reading at line 1023", |text, table, record| {
        let front: Vec<u8> = text.split_inclusive(|&byte| byte == b'\n').take(1023).flatten().copied().collect();
        read(&front, table, record)
    }),
    ("takes CR LF", |text, table, record| read(&each_word(text, |word| word.trim_end_matches('\r').to_string()), table, record)),
    ("takes 1N for 1NT", |text, table, record| {
        read(&each_word(text, |word| if word == "1N" { "1NT".to_string() } else { word.to_string() }), table, record)
    }),
    ("takes a zero in front of the board", |text, table, record| {
        read(text.strip_prefix(b"[Board \"0").map(|rest| [b"[Board \"", rest].concat()).as_deref().unwrap_or(text), table, record)
    }),
    ("cuts the table to nine bits", |text, table, record| read(text, table & 511, record)),
    ("cuts the board to seven bits", |text, table, record| {
        changed(text, table, record, |game| game.board = if game.board % 128 == 0 { game.board } else { game.board % 128 })
    }),
    ("writes nothing", |text, table, record| read(text, table, &mut record.to_vec())),
    ("clears the buffer on a refusal", |text, table, record| {
        let number = read(text, table, record);
        if number >= 1024 {
            record.fill(0);
        }
        number
    }),
    ("clears the byte behind the record", |text, table, record| {
        let number = read(text, table, record);
        if let Some(byte) = record.get_mut(number as usize) {
            *byte = 0;
        }
        number
    }),
];

/// Texts after which a fault must have been found: fewer than those of the gate.
const TEXTS: u64 = 60_000;

fn found(reader: PbnReader) -> bool {
    let mut trial = PbnTrial::new(reader, judge, 64);
    while trial.cases < TEXTS {
        if trial.round(|_| ()).is_err() {
            return true;
        }
    }
    false
}

#[test]
fn every_fault_is_found() {
    assert!(!found(read), "a reader without a fault was found out");
    for (fault, reader) in FAULTS {
        assert!(found(reader), "a reader that {fault} was not found out");
    }
}
