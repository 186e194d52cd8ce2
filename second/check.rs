// Runs a program once for each session, since an accepted plan stays for the rest of a run,
// and compares its output with the answers of this console byte for byte.

use crate::console::Console;
use crate::generate::{session, Session};
use std::collections::BTreeMap;
use std::io::{Read, Write};
use std::process::{Command, Stdio};
use std::sync::atomic::{AtomicU64, Ordering};
use std::sync::mpsc::channel;
use std::sync::Mutex;
use std::time::Duration;

const WORKERS: u64 = 2;
/// A program that is silent for so long will not answer any more, even where the machine has other
/// work beside it.
const PATIENCE: Duration = Duration::from_secs(300);

/// Prints the first mismatch, or one line with the counts. The result is the exit code.
pub fn check(program: &str, sessions: u64, first_seed: u64) -> i32 {
    match agreement(sessions, first_seed, |seed| compare(program, &session(seed))) {
        Ok(lines) => println!("agreed: {sessions} sessions, {lines} lines compared"),
        Err((seed, report)) => {
            println!("mismatch in the session of seed {seed}\n{report}");
            return 1;
        }
    }
    0
}

/// Goes through the seeds with two workers until one of them does not agree. `compare` tells how
/// much it compared or what is wrong; the result is the sum, or the least such seed and its report.
pub fn agreement(
    seeds: u64,
    first_seed: u64,
    compare: impl Fn(u64) -> Result<u64, String> + Sync,
) -> Result<u64, (u64, String)> {
    let next = AtomicU64::new(0);
    let compared = AtomicU64::new(0);
    let mismatches: Mutex<BTreeMap<u64, String>> = Mutex::new(BTreeMap::new());
    std::thread::scope(|scope| {
        for _ in 0..WORKERS {
            scope.spawn(|| loop {
                let turn = next.fetch_add(1, Ordering::SeqCst);
                if turn >= seeds || !mismatches.lock().unwrap().is_empty() {
                    return;
                }
                let seed = first_seed + turn;
                match compare(seed) {
                    Ok(much) => {
                        compared.fetch_add(much, Ordering::SeqCst);
                    }
                    Err(report) => {
                        mismatches.lock().unwrap().insert(seed, report);
                    }
                }
            });
        }
    });
    match mismatches.into_inner().unwrap().into_iter().next() {
        Some(mismatch) => Err(mismatch),
        None => Ok(compared.into_inner()),
    }
}

/// How many lines the session has, or the first that is answered in another way.
fn compare(program: &str, session: &Session) -> Result<u64, String> {
    let output = run(program, session.text(), Stdio::inherit())?;
    let mut rest: &[u8] = &output;
    let mut console = Console::default();
    for (index, line) in session.lines.iter().enumerate() {
        let Some(answer) = console.answer(line) else {
            continue;
        };
        let wanted = format!("{answer}\n").into_bytes();
        if !rest.starts_with(&wanted) {
            let end = rest.iter().position(|&byte| byte == b'\n').map_or(rest.len(), |place| place + 1);
            return Err(format!(
                "line {}: \"{}\"\nwanted: \"{}\"\nfound:  \"{}\"",
                index + 1,
                shown(line),
                shown(&wanted),
                shown(&rest[..end])
            ));
        }
        rest = &rest[wanted.len()..];
    }
    if !rest.is_empty() {
        return Err(format!("after the last answer\nwanted: \"\"\nfound:  \"{}\"", shown(rest)));
    }
    Ok(session.lines.len() as u64)
}

/// What the program prints for an input; an emulator may stand before it, divided by blanks. Its
/// standard error goes where `errors` says.
pub fn run(program: &str, input: Vec<u8>, errors: Stdio) -> Result<Vec<u8>, String> {
    let mut words = program.split(' ');
    let mut child = Command::new(words.next().unwrap_or(program))
        .args(words)
        .stdin(Stdio::piped())
        .stdout(Stdio::piped())
        .stderr(errors)
        .spawn()
        .map_err(|error| format!("{program} does not start: {error}"))?;
    let mut stdin = child.stdin.take().unwrap();
    let mut stdout = child.stdout.take().unwrap();
    // Input and output at the same time: a full pipe would stop both sides. A program that
    // ends early shows by its missing answers, so a failed write is no error here.
    std::thread::spawn(move || {
        let _ = stdin.write_all(&input);
    });
    let (sender, receiver) = channel();
    std::thread::spawn(move || {
        let mut output = Vec::new();
        let _ = stdout.read_to_end(&mut output);
        let _ = sender.send(output);
    });
    let output = receiver.recv_timeout(PATIENCE);
    if output.is_err() {
        let _ = child.kill();
    }
    let status = child.wait().map_err(|error| error.to_string())?;
    let output = output.map_err(|_| "the program did not end".to_string())?;
    if !status.success() {
        return Err(format!("the program ended with {status}"));
    }
    Ok(output)
}

pub fn shown(bytes: &[u8]) -> String {
    let mut text = bytes[..bytes.len().min(200)].escape_ascii().to_string();
    if bytes.len() > 200 {
        text += &format!(".. ({} bytes)", bytes.len());
    }
    text
}

/// How often each kind of answer is met, so that a reader sees that none is missing.
pub fn tally(sessions: u64, first_seed: u64) {
    let mut kinds: BTreeMap<String, u64> = BTreeMap::new();
    for seed in first_seed..first_seed + sessions {
        let mut console = Console::default();
        for line in session(seed).lines {
            let kind = match console.answer(&line) {
                None => "none".to_string(),
                Some(answer) if answer.starts_with("7f") => answer[..4].to_string(),
                Some(answer) => answer[..2].to_string(),
            };
            *kinds.entry(kind).or_default() += 1;
        }
    }
    for (kind, times) in kinds {
        println!("{kind:4} {times}");
    }
}
