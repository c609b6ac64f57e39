//! Compares the proved programs `sheet` and `cells` with the independent ones, on scores and on lines that are no scores.
use outside::random::Random;
use outside::run::{output_of, stop, Words};
use outside::sheet::{cells, sheet};

/// Lines that are no score.
const BAD: [&str; 20] = [
    "", "-", "-0", "00", "+10", "7610", "-7610", "5", "415", "010", "10000", "-10000", " 10", "10 ", "10\r", "1 0", "x", "--10", "9999",
    "0x10",
];

fn main() {
    let words = Words::given();
    let mut random = Random::new(words.seed());
    let limit = words.limit(3_000);
    let program = words.text("--program").unwrap_or_else(|| stop("--program needs the path of the program sheet"));
    let percentages = words.text("--cells").unwrap_or_else(|| stop("--cells needs the path of the program cells"));
    let (mut sheets, mut refused) = (0, 0);
    while !limit.reached(sheets) {
        let input = input(&mut random);
        let due = sheet(&input);
        compare(program, &input, &due);
        compare(percentages, &input, &cells(&input));
        refused += u64::from(due.ends_with("refused\n"));
        sheets += 1;
    }
    println!("{sheets} sheets, no difference; {refused} of them refused at a line");
    if limit.counted() && (refused < 100 || sheets - refused < 100) {
        stop("fewer than a hundred sheets with a table, or without one");
    }
}

fn compare(program: &str, input: &[u8], due: &str) {
    let output = output_of(program, input);
    if output != due.as_bytes() {
        let (input, output) = (String::from_utf8_lossy(input), String::from_utf8_lossy(&output));
        stop(&format!("a difference: {program} wrote\n{output}to be\n{due}for the input\n{input}"));
    }
}

fn input(random: &mut Random) -> Vec<u8> {
    if random.percent(3) {
        let n = random.below(40);
        return random.bytes(n);
    }
    let count = match random.below(6) {
        0 => random.between(126, 131),
        1 => random.between(0, 2),
        2 => random.between(100, 400),
        _ => random.below(60),
    };
    let distinct = *random.pick(&[1, 3, 20, 1521]);
    let score = |r: &mut Random| 10 * (r.below(distinct) as i64 - distinct as i64 / 2);
    let mut lines: Vec<String> = (0..count).map(|_| score(random).to_string()).collect();
    if random.percent(25) {
        let at = random.between(0, lines.len());
        lines.insert(at, random.pick(&BAD).to_string());
    }
    let mut input = lines.iter().map(|line| format!("{line}\n")).collect::<String>().into_bytes();
    if random.percent(30) {
        input.pop();
    }
    input
}
