// An independent second program for document 01 and for requests a and b of document 02: the
// console and the reading of AADL texts by brute force, and checkers that compare other programs
// with them.
//
//   second answer                               is the console: standard input to output
//   second check PROGRAM [SESSIONS] [FIRST_SEED] compares PROGRAM on generated sessions
//   second session SEED                         prints the session of a seed
//   second tally [SESSIONS] [FIRST_SEED]        counts the answers of the sessions by kind
//   second trial                                all calls on any values; see calls.rs
//   second table                                from an AADL text on standard input to the
//                                               console's lines or a refusal; see aadl.rs
//   second check-table PROGRAM [TEXTS] [FIRST_SEED] compares PROGRAM on generated AADL texts
//   second text SEED                            prints the AADL text of a seed
//   second tally-texts [TEXTS] [FIRST_SEED]     counts the answers to the texts by kind
//
// The AADL texts are read in aadl*.rs and generated in aadl_texts.rs and texts*.rs. Built by
// `rustc -O main.rs -o second`, and its own tests by `rustc --test main.rs`; standard library only.

mod aadl;
mod aadl_check;
mod aadl_declared;
mod aadl_grammar;
mod aadl_judge;
mod aadl_properties;
#[cfg(test)]
mod aadl_tests;
mod aadl_texts;
mod aadl_tokens;
mod calls;
mod check;
mod console;
mod generate;
mod lines;
mod lookups;
mod model;
#[cfg(test)]
mod model_tests;
mod random;
mod tables;
mod texts_faults;
mod texts_judged;
mod texts_model;
mod texts_noise;
mod texts_patterns;
mod texts_pieces;
mod texts_sizes;
mod texts_sound;
mod texts_spoiled;
mod texts_tiny;

use std::io::{BufRead, BufReader, BufWriter, Read, Write};

const SESSIONS: u64 = 1_200;
const TEXTS: u64 = 3_300;
const MODES: &str = "answer | check PROGRAM [SESSIONS] [FIRST_SEED] | session SEED \
                     | tally [SESSIONS] [FIRST_SEED] | trial | table \
                     | check-table PROGRAM [TEXTS] [FIRST_SEED] | text SEED \
                     | tally-texts [TEXTS] [FIRST_SEED]";

fn main() {
    let arguments: Vec<String> = std::env::args().skip(1).collect();
    let words: Vec<&str> = arguments.iter().map(|word| word.as_str()).collect();
    let code = match words.as_slice() {
        ["answer"] => answer(),
        ["check", program, rest @ ..] if rest.len() <= 2 => {
            check::check(program, number(rest.first(), SESSIONS), number(rest.get(1), 1))
        }
        ["session", seed] => print(&generate::session(number(Some(seed), 0)).text()),
        ["tally", rest @ ..] if rest.len() <= 2 => {
            check::tally(number(rest.first(), SESSIONS), number(rest.get(1), 1));
            0
        }
        ["trial"] => trial(),
        ["table"] => table(),
        ["check-table", program, rest @ ..] if rest.len() <= 2 => {
            aadl_check::check_table(program, number(rest.first(), TEXTS), number(rest.get(1), 1))
        }
        ["text", seed] => print(&aadl_texts::text(number(Some(seed), 0)).bytes),
        ["tally-texts", rest @ ..] if rest.len() <= 2 => {
            aadl_check::tally_texts(number(rest.first(), TEXTS), number(rest.get(1), 1))
        }
        _ => usage(MODES),
    };
    std::process::exit(code);
}

fn usage(what: &str) -> i32 {
    eprintln!("second: {what}");
    2
}

fn number(word: Option<&&str>, otherwise: u64) -> u64 {
    let Some(word) = word else {
        return otherwise;
    };
    word.parse().unwrap_or_else(|_| std::process::exit(usage(&format!("no number: {word}"))))
}

fn print(bytes: &[u8]) -> i32 {
    // A reader that has seen enough, such as `head`, is no error.
    let _ = std::io::stdout().write_all(bytes);
    0
}

fn answer() -> i32 {
    let mut input = BufReader::with_capacity(1 << 16, std::io::stdin().lock());
    let mut output = BufWriter::with_capacity(1 << 16, std::io::stdout().lock());
    let mut console = console::Console::default();
    let mut line = Vec::new();
    loop {
        line.clear();
        if input.read_until(b'\n', &mut line).is_err() || line.is_empty() {
            break;
        }
        if line.last() == Some(&b'\n') {
            line.pop();
        }
        if let Some(answer) = console.answer(&line) {
            if writeln!(output, "{answer}").is_err() {
                return 1;
            }
        }
        // Answers are out before the program waits for more.
        if input.buffer().is_empty() && output.flush().is_err() {
            return 1;
        }
    }
    i32::from(output.flush().is_err())
}

fn trial() -> i32 {
    let mut text = String::new();
    if std::io::stdin().read_to_string(&mut text).is_err() {
        return usage("the input is no text");
    }
    match calls::answers(&text) {
        Ok(output) => print(output.as_bytes()),
        Err(what) => usage(&what),
    }
}

fn table() -> i32 {
    let mut text = Vec::new();
    if std::io::stdin().read_to_end(&mut text).is_err() {
        return usage("the input cannot be read");
    }
    print(aadl::answer(&text).as_bytes())
}
