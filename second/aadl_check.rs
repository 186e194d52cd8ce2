// Runs a program once for each AADL text and compares what it prints with the answer of this
// reader byte for byte; and counts the answers by kind.

use crate::aadl::answer;
use crate::aadl_texts::{text, Text};
use crate::check::{agreement, run, shown};
use std::collections::BTreeMap;
use std::process::Stdio;

/// Prints the first mismatch, or one line with the counts. The result is the exit code.
pub fn check_table(program: &str, texts: u64, first_seed: u64) -> i32 {
    match agreement(texts, first_seed, |seed| compare(program, text(seed))) {
        Ok(bytes) => println!("agreed: {texts} texts, {bytes} bytes compared"),
        Err((seed, report)) => {
            println!("mismatch in the text of seed {seed}\n{report}");
            return 1;
        }
    }
    0
}

/// How many bytes the answer has, or what is printed in its place.
fn compare(program: &str, text: Text) -> Result<u64, String> {
    let wanted = own_answer(&text)?;
    let around = around_place(&text.bytes, &wanted);
    let found = run(program, text.bytes, Stdio::null())?;
    if found != wanted.as_bytes() {
        return Err(difference(&wanted, &found) + &around);
    }
    Ok(wanted.len() as u64)
}

/// The answer of this reader, which must be the generator's where the generator knows it.
fn own_answer(text: &Text) -> Result<String, String> {
    let answer = answer(&text.bytes);
    match &text.known {
        Some(known) if *known != answer => {
            Err(format!("by the generator: {known:?}\nby this reader:   {answer:?}"))
        }
        _ => Ok(answer),
    }
}

/// The first line that differs.
fn difference(wanted: &str, found: &[u8]) -> String {
    let mut wanted_lines = wanted.as_bytes().split_inclusive(|&byte| byte == b'\n');
    let mut found_lines = found.split_inclusive(|&byte| byte == b'\n');
    let mut line = 1;
    loop {
        let (one, other) = (wanted_lines.next().unwrap_or(b""), found_lines.next().unwrap_or(b""));
        if one != other {
            return format!("line {line}\nwanted: \"{}\"\nfound:  \"{}\"", shown(one), shown(other));
        }
        line += 1;
    }
}

/// For a wanted refusal with a place: the text before it and behind it.
fn around_place(text: &[u8], wanted: &str) -> String {
    let digits = wanted.trim_end();
    if !digits.starts_with("7f") || digits.len() != 12 {
        return String::new();
    }
    let place = usize::from_str_radix(&digits[4..], 16).unwrap_or(0).min(text.len());
    let before = &text[place.saturating_sub(60)..place];
    let behind = &text[place..(place + 60).min(text.len())];
    format!("\nbefore place {place}: \"{}\"\nfrom there on: \"{}\"", shown(before), shown(behind))
}

/// How often each kind of answer is met, so that a reader sees that none is missing. The result is
/// the exit code: 1 where the generator knows another answer.
pub fn tally_texts(texts: u64, first_seed: u64) -> i32 {
    let mut kinds: BTreeMap<String, u64> = BTreeMap::new();
    for seed in first_seed..first_seed + texts {
        let text = text(seed);
        match own_answer(&text) {
            Ok(answer) => *kinds.entry(kind(&answer)).or_default() += 1,
            Err(report) => {
                println!("mismatch in the text of seed {seed}\n{report}");
                return 1;
            }
        }
    }
    for (kind, times) in kinds {
        println!("{kind:5} {times}");
    }
    0
}

fn kind(answer: &str) -> String {
    match answer.strip_prefix("7f") {
        Some(refusal) => format!("{:5}", u8::from_str_radix(&refusal[..2], 16).unwrap_or(0)),
        None => "table".to_string(),
    }
}
