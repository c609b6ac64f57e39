//! Writes three sections of records, one a line in hexadecimal, into a folder, and what `standings` has to write for them: boards that all have, one that
//! one section has, one with a single result, one fouled between sections and one within, one over 128 results in all and one over in one section. The
//! records of the last section stand in files of their own too, as bytes and in hexadecimal. No table is of two sections, so that the three are one field too.
use outside::judge;
use outside::making;
use outside::random::Random;
use outside::run::stop;
use outside::standings::{standings, tally, Results};
use outside::tally::Deal;

const SECTIONS: usize = 3;

/// The first table of each section stands so far behind that of the one before it.
const TABLES: usize = 150;

/// A board, and for each section its results and the number of the deal that they are of; a fouled one has results of a second deal in one section.
struct Board {
    number: u8,
    results: [usize; SECTIONS],
    deals: [usize; SECTIONS],
    fouled_in: Option<usize>,
}

const fn board(number: u8, results: [usize; SECTIONS]) -> Board {
    Board { number, results, deals: [0; SECTIONS], fouled_in: None }
}

const BOARDS: [Board; 9] = [
    board(1, [12, 9, 14]),
    board(2, [40, 44, 44]),
    board(3, [0, 5, 0]),
    Board { deals: [0, 1, 0], ..board(7, [6, 7, 8]) },
    board(16, [43, 43, 43]),
    Board { fouled_in: Some(0), ..board(17, [5, 5, 5]) },
    board(64, [0, 130, 1]),
    board(100, [0, 0, 1]),
    board(127, [2, 2, 2]),
];

struct Section {
    records: Vec<Vec<u8>>,
    results: Results,
}

fn main() {
    let words: Vec<String> = std::env::args().skip(1).collect();
    let [seed, folder] = words.as_slice() else { stop("usage: sections SEED FOLDER") };
    let mut random = Random::new(seed.parse().unwrap_or_else(|_| stop("the seed is a number")));
    let mut sections: Vec<Section> = (0..SECTIONS).map(|_| Section { records: Vec::new(), results: Results::new() }).collect();
    for board in &BOARDS {
        let deals = [making::deal(&mut random), making::deal(&mut random)];
        for (k, section) in sections.iter_mut().enumerate() {
            for n in 0..board.results[k] {
                let other = usize::from(board.fouled_in == Some(k) && n == 2);
                section.play(&mut random, board.number, (TABLES * k + n + 1) as u64, &deals[board.deals[k] ^ other]);
            }
        }
    }
    let mut all = Results::new();
    for (k, section) in sections.iter_mut().enumerate() {
        random.shuffle(&mut section.records);
        let lines: String = section.records.iter().map(|record| hex(record) + "\n").collect();
        write(folder, &format!("section-{}", k + 1), lines);
        let refused = section.results.iter().any(|(&board, results)| tally(board, results).is_none());
        write(folder, &format!("status-{}", k + 1), format!("{}\n", u8::from(refused)));
        for (&board, results) in &section.results {
            all.entry(board).or_default().extend(results);
        }
    }
    for (n, record) in sections[SECTIONS - 1].records.iter().enumerate() {
        write(folder, &format!("records/{n}"), record);
        write(folder, &format!("records/{n}.hex"), hex(record));
    }
    write(folder, "standings", standings(&all));
}

impl Section {
    /// A record of a table that has none of this board yet.
    fn play(&mut self, random: &mut Random, board: u8, table: u64, deal: &[u64]) {
        let mut parts = making::with_deal(random, u64::from(board), deal).parts;
        parts.table = table;
        let record = parts.bytes();
        let score = score_of(&record);
        let deal: Deal = std::array::from_fn(|card| deal[card] as u8);
        self.results.entry(board).or_default().push((score, deal));
        self.records.push(record);
    }
}

/// The score that the independent judge gives a lawful record.
fn score_of(record: &[u8]) -> i32 {
    let judged = judge::read(record).unwrap_or_else(|_| stop("a record that was made to be lawful is refused"));
    i32::from(i16::from_be_bytes([judged.answer[5], judged.answer[6]]))
}

fn hex(bytes: &[u8]) -> String {
    bytes.iter().map(|byte| format!("{byte:02x}")).collect()
}

fn write(folder: &str, name: &str, bytes: impl AsRef<[u8]>) {
    let path = format!("{folder}/{name}");
    std::fs::write(&path, bytes).unwrap_or_else(|e| stop(&format!("{path} cannot be written: {e}")));
}
