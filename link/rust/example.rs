//! Prints what comes of the input in a file:         example FILE [ROOM]
//! or its waveform:                                  example --waveform FILE [ROOM]
//! or of a stored record, beside its task entries:   example --read TASKS RECORD [ROOM]
//! ROOM is the length of the slice that is lent.

use gateway::{Outcome, Refusal};
use std::io::{self, BufWriter, Write};

const MOST: usize = 1 << 20;

fn trouble(what: &str) -> ! {
    eprintln!("{what}");
    std::process::exit(2);
}

fn read_file(path: &str) -> Vec<u8> {
    std::fs::read(path).unwrap_or_else(|why| trouble(&format!("{path}: {why}")))
}

/// The length of the slice that is lent: at most all of it.
fn room(word: Option<&&str>) -> usize {
    match word {
        None => MOST,
        Some(word) if word.is_empty() || !word.bytes().all(|byte| byte.is_ascii_digit()) => trouble(&format!("ROOM is a number, not {word}")),
        Some(word) => word.parse().unwrap_or(MOST).min(MOST),
    }
}

/// What was written, and its bytes: a text as it is, others by two digits each.
fn print(what: &str, is_text: bool, outcome: Outcome, out: &[u8]) -> io::Result<()> {
    let (number, value, written) = match outcome {
        Outcome::Written(length) => (0, length, length),
        Outcome::TooShort(needed) => (Refusal::TOO_SHORT, needed, 0),
        Outcome::Refused(refusal) => (refusal.number, refusal.place.unwrap_or(0), 0),
    };
    let mut printed = BufWriter::new(io::stdout().lock());
    writeln!(printed, "number {number}, value {value}, {what} of {written} bytes")?;
    if is_text {
        printed.write_all(&out[..written])?;
        return printed.flush();
    }
    for line in out[..written].chunks(32) {
        writeln!(printed, "{}", line.iter().map(|byte| format!("{byte:02x}")).collect::<String>())?;
    }
    printed.flush()
}

fn main() {
    let words: Vec<String> = std::env::args().collect();
    let words: Vec<&str> = words.iter().map(String::as_str).collect();
    let printed = match words[1..] {
        ["--read", tasks, record, ref more @ ..] if more.len() < 2 => {
            let mut out = vec![0; room(more.first())];
            let outcome = gateway::read(&read_file(tasks), &read_file(record), &mut out);
            print("list", false, outcome, &out)
        }
        ["--waveform", input, ref more @ ..] if more.len() < 2 => {
            let mut out = vec![0; room(more.first())];
            let outcome = gateway::waveform(&read_file(input), &mut out);
            print("waveform", true, outcome, &out)
        }
        [input, ref more @ ..] if more.len() < 2 && !["--read", "--waveform"].contains(&input) => {
            let mut out = vec![0; room(more.first())];
            let outcome = gateway::record(&read_file(input), &mut out);
            print("record", false, outcome, &out)
        }
        _ => trouble(&format!("usage: {0} [--waveform] FILE [ROOM], or {0} --read TASKS RECORD [ROOM]", words[0])),
    };
    if printed.is_err() {
        trouble("what comes of it cannot be printed");
    }
}
