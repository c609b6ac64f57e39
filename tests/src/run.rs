//! What the programs here share: their words on the command line, the time they may take, and other programs that they run.
use crate::kept;
use std::io::{Read, Write};
use std::process::{Command, Stdio};
use std::time::{Duration, Instant, SystemTime, UNIX_EPOCH};

/// Words of the form `--name value`.
pub struct Words {
    words: Vec<String>,
}

impl Words {
    pub fn given() -> Words {
        Words { words: std::env::args().skip(1).collect() }
    }

    pub fn text(&self, name: &str) -> Option<&str> {
        let at = self.words.iter().position(|word| word == name)?;
        match self.words.get(at + 1) {
            Some(value) => Some(value),
            None => stop(&format!("{name} needs a value")),
        }
    }

    pub fn number(&self, name: &str) -> Option<u64> {
        let value = self.text(name)?;
        match value.parse() {
            Ok(number) => Some(number),
            Err(_) => stop(&format!("{name} needs a number, not {value}")),
        }
    }

    /// The seed that was given, or one from the clock; printed either way.
    pub fn seed(&self) -> u64 {
        let clock = || SystemTime::now().duration_since(UNIX_EPOCH).map_or(1, |t| t.as_nanos() as u64);
        let seed = self.number("--seed").unwrap_or_else(clock);
        println!("seed {seed}");
        seed
    }

    pub fn limit(&self, count: u64) -> Limit {
        Limit {
            count: self.number("--count").unwrap_or(count),
            until: self.number("--seconds").map(|s| Instant::now() + Duration::from_secs(s)),
            every_kind: self.text("--kinds") != Some("some"),
        }
    }
}

/// How long a program goes on: a number of cases, or a time.
pub struct Limit {
    pub count: u64,
    until: Option<Instant>,
    every_kind: bool,
}

impl Limit {
    pub fn reached(&self, done: u64) -> bool {
        match self.until {
            Some(end) => Instant::now() >= end,
            None => done >= self.count,
        }
    }

    /// Whether the limit is a number of cases in which each kind of case has to occur, as it has without the words `--kinds some`.
    pub fn counted(&self) -> bool {
        self.until.is_none() && self.every_kind
    }
}

/// Ends the program with a sentence that says why, and with the file that has the last input where one is asked for.
pub fn stop(why: &str) -> ! {
    eprintln!("{why}");
    if let Some(path) = kept::found() {
        eprintln!("the input is kept in {}", path.display());
    }
    std::process::exit(1)
}

/// What a program writes for an input; it must end by itself.
pub fn output_of(program: &str, input: &[u8]) -> Vec<u8> {
    let started = Command::new(program).stdin(Stdio::piped()).stdout(Stdio::piped()).spawn();
    let mut child = started.unwrap_or_else(|e| stop(&format!("{program} cannot be run: {e}")));
    let mut stdin = child.stdin.take().expect("a pipe");
    let mut stdout = child.stdout.take().expect("a pipe");
    let mut output = Vec::new();
    std::thread::scope(|scope| {
        // A program may stop reading before the input's end; that is no fault.
        scope.spawn(move || stdin.write_all(input).is_ok());
        stdout.read_to_end(&mut output).unwrap_or_else(|e| stop(&format!("{program} cannot be read: {e}")));
    });
    let status = child.wait().unwrap_or_else(|e| stop(&format!("{program} does not end: {e}")));
    if status.code().is_none() {
        stop(&format!("{program} was ended by a signal: {status}"));
    }
    kept::run(program, input, &output);
    output
}
