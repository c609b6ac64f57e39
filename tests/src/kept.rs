//! Calls of the proved archives and runs of the proved programs, kept as they were made, so that tests/jumps can make them again: under another tool, on
//! another processor, by other object code. Calls go to the end of the file that KEPT_CALLS names, runs to the end of one file for each program in the
//! folder that KEPT_RUNS names; without these words of the environment nothing is kept. Numbers have four bytes, least significant first. Where FOUND names
//! a file, a program that stops for a difference writes the last call there in words, or the input of the last run as it was.
use crate::run::stop;
use std::env;
use std::fs::{File, OpenOptions};
use std::io::Write;
use std::path::{Path, PathBuf};
use std::sync::{Mutex, OnceLock};

/// The calls, in the order of tests/jumps/calls.c.
#[derive(Clone, Copy, Debug)]
pub enum Call {
    Record,
    Write,
    BestPlay,
    ReadPbn,
    Slip,
    Dealer,
    Vulnerable,
    Fresh,
    Add,
    Merge,
    Matchpoints,
    Award,
    Cell,
    Hundredths,
}

/// Makes a call and keeps it: its numbers, its slices, the lent buffers before, the number returned, the buffers after.
pub fn call<const N: usize>(
    call: Call,
    numbers: &[u32],
    slices: &[&[u8]],
    mut lent: [&mut [u8]; N],
    made: impl FnOnce(&mut [&mut [u8]; N]) -> u32,
) -> u32 {
    static CALLS: OnceLock<Option<Mutex<File>>> = OnceLock::new();
    let Some(file) = CALLS.get_or_init(|| env::var_os("KEPT_CALLS").map(|path| Mutex::new(opened(Path::new(&path))))) else {
        let number = made(&mut lent);
        note(|| in_words(call, numbers, slices, &lent.map(|buffer| buffer.len()), number));
        return number;
    };
    let mut bytes = vec![call as u8, numbers.len() as u8, slices.len() as u8, N as u8];
    numbers.iter().for_each(|number| bytes.extend(number.to_le_bytes()));
    slices.iter().for_each(|slice| put(&mut bytes, slice));
    lent.iter().for_each(|buffer| put(&mut bytes, buffer));
    let number = made(&mut lent);
    bytes.extend(number.to_le_bytes());
    lent.iter().for_each(|buffer| bytes.extend(&**buffer));
    append(&mut file.lock().expect("no other call failed"), &bytes);
    number
}

/// Keeps a run: what the program read, and what it wrote.
pub fn run(program: &str, input: &[u8], output: &[u8]) {
    note(|| input.to_vec());
    static FOLDER: OnceLock<Option<PathBuf>> = OnceLock::new();
    let Some(folder) = FOLDER.get_or_init(|| env::var_os("KEPT_RUNS").map(PathBuf::from)) else { return };
    let Some(name) = Path::new(program).file_name() else { return };
    let mut bytes = Vec::new();
    put(&mut bytes, input);
    put(&mut bytes, output);
    append(&mut opened(&folder.join(name)), &bytes);
}

fn opened(path: &Path) -> File {
    let file = OpenOptions::new().create(true).append(true).open(path);
    file.unwrap_or_else(|e| stop(&format!("{} cannot be written: {e}", path.display())))
}

fn append(file: &mut File, bytes: &[u8]) {
    file.write_all(bytes).unwrap_or_else(|e| stop(&format!("a call or a run cannot be kept: {e}")));
}

fn put(bytes: &mut Vec<u8>, slice: &[u8]) {
    bytes.extend((slice.len() as u32).to_le_bytes());
    bytes.extend(slice);
}

/// The last call in words, or the last input of a program, where a file is named for what is found.
static LAST: Mutex<Vec<u8>> = Mutex::new(Vec::new());

fn place_of_findings() -> Option<&'static Path> {
    static FOUND: OnceLock<Option<PathBuf>> = OnceLock::new();
    FOUND.get_or_init(|| env::var_os("FOUND").map(PathBuf::from)).as_deref()
}

fn note(last: impl FnOnce() -> Vec<u8>) {
    if place_of_findings().is_some() {
        *LAST.lock().expect("no other call failed") = last();
    }
}

fn in_words(call: Call, numbers: &[u32], slices: &[&[u8]], rooms: &[usize], returned: u32) -> Vec<u8> {
    let hex = |slice: &[u8]| slice.iter().map(|byte| format!("{byte:02X}")).collect::<String>();
    let mut words = format!("{call:?}\n");
    words.extend(numbers.iter().map(|number| format!("number {number}\n")));
    words.extend(slices.iter().map(|slice| format!("slice of {} bytes {}\n", slice.len(), hex(slice))));
    words.extend(rooms.iter().map(|room| format!("buffer of {room} bytes\n")));
    words.push_str(&format!("returned {returned}\n"));
    words.into_bytes()
}

/// Writes the last call or input to the file for what is found; where that was done.
pub fn found() -> Option<&'static Path> {
    let path = place_of_findings()?;
    let last = LAST.lock().ok()?;
    if last.is_empty() {
        return None;
    }
    File::create(path).and_then(|mut file| file.write_all(&last)).ok()?;
    Some(path)
}
