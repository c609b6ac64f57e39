//! Compares the proved reader of Portable Bridge Notation, by the archive and by the program `pbn`, with the independent one, on texts of all shapes.
use outside::pbn::{self, MOST_BYTES};
use outside::pbn_texts::Text;
use outside::pbn_trial::PbnTrial;
use outside::proved;
use outside::random::Random;
use outside::run::{output_of, stop, Words};

/// The program is run on one text of so many, if no other number is given.
const RUN: u64 = 100;
/// First lines that are no table.
const NO_TABLES: [&str; 8] = ["", "0", "07", "1000", "12 ", "12\r", "-1", "x"];

fn main() {
    let words = Words::given();
    let seed = words.seed();
    let program = words.text("--program").unwrap_or_else(|| stop("--program needs the path of the program pbn"));
    let mut random = Random::new(seed);
    let mut trial = PbnTrial::new(proved::read_pbn, proved::judge, seed);
    let limit = words.limit(120_000);
    let run_each = words.number("--run-each").unwrap_or(RUN);
    let (mut texts, mut runs) = (0u64, 0u64);
    at_the_bounds(program);
    while !limit.reached(trial.cases) {
        let round = trial.round(|text| {
            texts += 1;
            if texts % run_each == 0 {
                run(program, &input(&mut random, text));
                runs += 1;
            }
        });
        if let Err(difference) = round {
            stop(&format!("a difference after {} texts: {difference}", trial.cases));
        }
    }
    println!("{}\n{runs} of them by the program too", trial.report());
    if limit.counted() {
        trial.enough().unwrap_or_else(|missing| stop(&missing));
    }
}

/// What the program reads: the table's line and the text. One in ten has no table there.
fn input(random: &mut Random, text: &Text) -> Vec<u8> {
    let table = if random.percent(10) { random.pick(&NO_TABLES).to_string() } else { text.table.to_string() };
    [table.as_bytes(), b"\n", &text.bytes].concat()
}

/// No input, a table alone, and inputs about the most that the program holds.
fn at_the_bounds(program: &str) {
    for input in [&b""[..], b"12", b"\n", b"12\n", b"12\n[Board \"1\"]", b"12\n[Board \"1\"]\n"] {
        run(program, input);
    }
    for length in [MOST_BYTES - 1, MOST_BYTES, MOST_BYTES + 1, 2 * MOST_BYTES, 300_000] {
        run(program, &vec![b'\n'; length]);
        run(program, &vec![b'7'; length]);
        run(program, &calls_up_to(length));
    }
}

/// Lines of calls up to so many bytes: all of the subset, but for a last line that is cut.
fn calls_up_to(length: usize) -> Vec<u8> {
    let front = b"12\n[Board \"1\"]\n[Deal \"N:...AKQJT98765432 ..AKQJT98765432. .AKQJT98765432.. AKQJT98765432...\"]\n[Auction \"N\"]\n";
    front.iter().chain(b"Pass Pass Pass Pass\n".iter().cycle()).copied().take(length).collect()
}

fn run(program: &str, input: &[u8]) {
    let (output, due) = (output_of(program, input), pbn::output(input));
    if output != due {
        let shown = String::from_utf8_lossy(&input[..input.len().min(3000)]);
        stop(&format!("a difference: the program wrote\n{output:02X?}\nto be\n{due:02X?}\nfor {} bytes\n{shown}", input.len()));
    }
}
