//! Texts in Portable Bridge Notation for each place of 32, each refusal, their order, and columns, by both readers. The numbers due are worked out from
//! docs/RULES.md, 15.
use outside::pbn::{self, PbnReader};
use outside::proved;

mod places;
mod refusals;

const READERS: [PbnReader; 2] = [pbn::read, proved::read_pbn];

/// What the buffer holds before.
const BEFORE: u8 = 0xEE;
/// The table of all texts here, where none is named.
const TABLE: u32 = 3;

/// samples/partscore: one notrump by North on board 1. E, who leads, has the first column; W leads to tricks 5 to 7, N to 8 to 10, S from 11 on.
const LINES: [&str; 18] = [
    "[Board \"1\"]",
    "[Deal \"N:AKQ.876.543.JT92 JT9.543.AKQ2.876 876.AKQ2.JT9.543 5432.JT9.876.AKQ\"]",
    "[Auction \"N\"]",
    "1NT Pass Pass Pass",
    "[Play \"E\"]",
    "DA D9 D6 D3",
    "DK DT D7 D4",
    "DQ DJ D8 D5",
    "C6 C3 CQ C2",
    "C7 C4 CA C9",
    "C8 C5 CK CT",
    "S9 S6 S3 SA",
    "ST S7 S4 SK",
    "SJ S8 S5 SQ",
    "H3 HA H9 H6",
    "H4 HK HT H7",
    "H5 HQ HJ H8",
    "D2 H2 S2 CJ",
];

/// The bytes of samples/partscore.hex.
const RECORD: [u8; 59] = [
    0x02, 0x03, 0x2A, 0x54, 0x0F, 0xD0, 0x3F, 0xA9, 0x59, 0x50, 0x3F, 0xAB, 0xFE, 0xA5, 0x40, 0x02, 0x0E, 0x00, 0x00, 0x68, 0xCA, 0x88,
    0x9C, 0xC2, 0xA9, 0x1E, 0xBA, 0xC9, 0xA0, 0x20, 0x25, 0x00, 0x60, 0xE2, 0x84, 0x59, 0x03, 0x07, 0x46, 0x77, 0x57, 0x95, 0xF6, 0x53,
    0x8E, 0x16, 0xD4, 0xF3, 0x73, 0x43, 0x2C, 0x4F, 0xB9, 0x24, 0x70, 0x3A, 0xD4, 0xE4, 0x9A,
];

/// Lines, each ended by a newline.
fn text(lines: &[&str]) -> String {
    lines.iter().map(|line| format!("{line}\n")).collect()
}

fn whole() -> String {
    text(&LINES)
}

/// The text with one line made another, by its number from 1; a line may become several, or none.
fn with(line: usize, others: &[&str]) -> String {
    text(&[&LINES[..line - 1], others, &LINES[line..]].concat())
}

/// The three tags, these lines of calls, and nothing else.
fn calls(lines: &[&str]) -> String {
    text(&[&LINES[..3], lines].concat())
}

/// So many lines of four passes behind the tags.
fn passes(lines: usize) -> String {
    calls(&vec!["Pass Pass Pass Pass"; lines])
}

/// What a reader returns and leaves in a buffer of so many bytes.
fn read(reader: PbnReader, text: &str, table: u32, room: usize) -> (u32, Vec<u8>) {
    let mut record = vec![BEFORE; room];
    let number = reader(text.as_bytes(), table, &mut record);
    (number, record)
}

/// Each text is refused with the number and place by both readers, and nothing is written.
fn refused(cases: &[(u32, u32, String)]) {
    for (number, place, text) in cases {
        for reader in READERS {
            let (returned, record) = read(reader, text, TABLE, 300);
            assert_eq!((returned / 1024, returned % 1024), (*number, *place), "{text}");
            assert!(record.iter().all(|&byte| byte == BEFORE), "bytes written for\n{text}");
        }
    }
}

fn outside(cases: &[(u32, String)]) {
    let cases: Vec<(u32, u32, String)> = cases.iter().map(|(place, text)| (32, *place, text.clone())).collect();
    refused(&cases);
}

#[test]
fn the_record_whichever_seat_the_deal_starts_from() {
    let deals = [
        "[Deal \"N:AKQ.876.543.JT92 JT9.543.AKQ2.876 876.AKQ2.JT9.543 5432.JT9.876.AKQ\"]",
        "[Deal \"E:JT9.543.AKQ2.876 876.AKQ2.JT9.543 5432.JT9.876.AKQ AKQ.876.543.JT92\"]",
        "[Deal \"S:876.AKQ2.JT9.543 5432.JT9.876.AKQ AKQ.876.543.JT92 JT9.543.AKQ2.876\"]",
        "[Deal \"W:5432.JT9.876.AKQ AKQ.876.543.JT92 JT9.543.AKQ2.876 876.AKQ2.JT9.543\"]",
    ];
    for reader in READERS {
        for deal in deals {
            let due = [&RECORD[..], &[BEFORE; 3]].concat();
            assert_eq!(read(reader, &with(2, &[deal]), TABLE, 62), (59, due), "{deal}");
        }
        assert_eq!(read(reader, &whole(), TABLE, 59), (59, RECORD.to_vec()));
        for room in 0..59 {
            assert_eq!(read(reader, &whole(), TABLE, room), (22 * 1024, vec![BEFORE; room]), "{room} bytes");
        }
    }
}

/// The passed-out board of docs/RULES.md, 16.
#[test]
fn a_passed_out_board() {
    let passed_out = text(&[
        "[Board \"1\"]",
        "[Deal \"N:...AKQJT98765432 ..AKQJT98765432. .AKQJT98765432.. AKQJT98765432...\"]",
        "[Auction \"N\"]",
        "Pass Pass Pass Pass",
    ]);
    let record = [0x02, 0x01, 0, 0, 0, 0x15, 0x55, 0x55, 0x5A, 0xAA, 0xAA, 0xAB, 0xFF, 0xFF, 0xFF, 0x02, 0, 0, 0, 0];
    for reader in READERS {
        assert_eq!(read(reader, &passed_out, 1, 20), (20, record.to_vec()));
        assert_eq!(read(reader, &passed_out, 1, 19).0, 22 * 1024);
    }
}

/// A card that does not follow suit is taken, and stands in the record in its place.
#[test]
fn a_revoke_is_taken() {
    // North plays C2 to the first diamond and D3 to the first club; E and W win these tricks as before.
    let revokes = with(6, &["DA D9 D6 C2"]).replace("C6 C3 CQ C2", "C6 C3 CQ D3");
    for reader in READERS {
        let (number, record) = read(reader, &revokes, TABLE, 59);
        assert_eq!(number, 59);
        // Plays 3 and 15 have each other's card; the cards stand behind board, table, deal, four calls and the two counts.
        let bits = |record: &[u8], at: usize| (at..at + 6).fold(0, |value, bit| value << 1 | (record[bit / 8] >> (7 - bit % 8) & 1));
        let card = |record: &[u8], play: usize| bits(record, 16 + 104 + 9 + 4 * 6 + 6 + 6 * play);
        for play in 0..52 {
            let due = match play {
                3 => 0,
                15 => 14,
                _ => card(&RECORD, play),
            };
            assert_eq!(card(&record, play), due, "play {play}");
        }
    }
}

/// The games of samples/pbn by both readers; as they were exported they are outside the subset.
#[test]
fn games_of_the_samples() {
    let folder = concat!(env!("CARGO_MANIFEST_DIR"), "/../samples/pbn");
    let sample = |name: &str| std::fs::read_to_string(format!("{folder}/{name}")).expect("a sample");
    for name in ["ending", "game", "doubled", "passed-out", "slam"] {
        outside(&[(1, sample(&format!("{name}.export")))]);
        let written = READERS.map(|reader| read(reader, &sample(&format!("{name}.pbn")), 17, 300));
        assert!(written[0].0 < 1024, "{name} is refused with {}", written[0].0);
        assert_eq!(written[0], written[1], "{name}");
    }
}
