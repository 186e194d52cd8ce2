// Requests a and b of document 02 by AADL.md: from an AADL text to the console's lines, or to the
// first refusal.

use crate::aadl_declared::{Declared, Fault};
use crate::aadl_grammar::Reader;
use crate::aadl_judge::{judge, table};
use crate::model::{plan, Refusal, Table};

pub const MOST_BYTES: usize = 262_144;

/// What the program `table` prints for a text.
pub fn answer(text: &[u8]) -> String {
    match imported(text) {
        Ok(table) => planned(&table),
        Err(fault) => refused(fault.number, fault.place),
    }
}

pub fn refused(number: u8, place: usize) -> String {
    format!("7f{number:02x}{place:08x}\n")
}

/// "The imported table goes through planning as any other."
pub fn planned(table: &Table) -> String {
    match plan(table) {
        Ok(_) => lines(table),
        Err(Refusal { rule, row }) => format!("7f{rule:02x}{row:02x}\n"),
    }
}

/// The table as the console reads it, with six bytes in every line 01.
fn lines(table: &Table) -> String {
    let mut lines = String::new();
    for task in &table.tasks {
        lines += &format!("01{:04x}{:04x}{:02x}\n", task.period, task.deadline, task.priority);
    }
    for queue in &table.queues {
        let mask: u64 = queue.senders.iter().map(|sender| 1 << sender).sum();
        lines += &format!("02{:02x}{mask:04x}\n", queue.receiver);
    }
    lines + "03\n"
}

/// "Only a text that was read to its end is judged by the table below. The least place decides, at
/// one place the lower number."
fn imported(text: &[u8]) -> Result<Table, Fault> {
    let (declared, mut faults) = read(text);
    if let Some(declared) = &declared {
        faults.extend(judge(declared));
    }
    match (faults.into_iter().min(), declared) {
        (None, Some(declared)) => Ok(table(&declared)),
        (Some(least), _) => Err(least),
        (None, None) => unreachable!("what ends the reading is a fault"),
    }
}

/// What is to be judged, if anything is, and the faults so far. "Of a text of more than 262,144
/// bytes the first 262,144 are read as if they were all; 20 at 262,144 is then noted, and it is
/// judged no further."
fn read(text: &[u8]) -> (Option<Declared>, Vec<Fault>) {
    let mut reader = Reader::over(&text[..text.len().min(MOST_BYTES)]);
    let mut was_read = reader.text().is_ok();
    if text.len() > MOST_BYTES {
        reader.faults.push(Fault { place: MOST_BYTES, number: 20 });
        was_read = false;
    }
    (was_read.then_some(reader.declared), reader.faults)
}
