// AADL texts from seeds: sound ones in many styles, ones with faults at known places, small ones
// in which everything meets, spoiled ones, and ones at the limits. Where the generator knows the
// answer by itself, it says so.

use crate::aadl::{planned, refused};
use crate::aadl_tokens::RESERVED;
use crate::model::{Queue, Table, Task};
use crate::random::Random;
use crate::tables::{refused_table, table_of_shape, REFUSED_SHAPES, SHAPES};
use crate::texts_faults::{put_depth, put_reading_fault, put_reserved_word, reading_faults};
use crate::texts_judged::{put_judged_fault, JUDGED_FAULTS};
use crate::texts_model::ModelText;
use crate::texts_pieces::{Class, Due, Piece, Style, Written};
use crate::texts_sizes::{of_size, SIZES};
use crate::texts_sound::sound;
use crate::texts_spoiled::{spoiled_bytes, spoiled_pieces};
use crate::texts_tiny::tiny;

pub struct Text {
    pub bytes: Vec<u8>,
    /// The answer that the generator knows.
    pub known: Option<String>,
}

/// The kinds of texts take turns by seed, so that every kind comes in every stretch of so many
/// seeds.
pub const TURN: u64 = 33;
/// Texts of a turn that have one fault of the reading.
pub const READING_FAULTS: u64 = 6;

pub fn text(seed: u64) -> Text {
    let mut random = Random::from_seed(seed);
    let random = &mut random;
    let (turn, place) = (seed / TURN, seed % TURN);
    match place {
        0..=9 => of_model(&sound(&good_table(random), random), random),
        10..=11 => of_model(&sound(&bad_table(2 * turn + place - 10, random), random), random),
        12..=17 => of_model(&with_reading_fault(READING_FAULTS * turn + place - 12, random), random),
        18 => of_model(&with_reserved_word_or_depth(turn, random), random),
        19..=21 => of_model(&with_judged_fault(3 * turn + place - 19, random), random),
        22 => of_model(&with_faults_of_both_kinds(random), random),
        23..=25 => {
            let pieces = tiny(random);
            unknown(Style::any(random).write(&pieces, random).bytes)
        }
        26..=28 => {
            let pieces = spoiled_pieces(some_pieces(random), random);
            unknown(Style::any(random).write(&pieces, random).bytes)
        }
        29..=31 => {
            let pieces = some_pieces(random);
            let bytes = Style::any(random).write(&pieces, random).bytes;
            unknown(spoiled_bytes(bytes, random))
        }
        _ => {
            let sized = of_size(turn % SIZES, random);
            Text { bytes: sized.text, known: sized.answer }
        }
    }
}

fn unknown(bytes: Vec<u8>) -> Text {
    Text { bytes, known: None }
}

fn of_model(model: &ModelText, random: &mut Random) -> Text {
    let pieces = model.pieces(random);
    let written = Style::any(random).write(&pieces, random);
    let known = Some(known_answer(&model.table, &written));
    Text { bytes: written.bytes, known }
}

/// What ends the reading hides what is behind it and the whole judgement; of the rest "the least
/// place decides, at one place the lower number".
fn known_answer(table: &Table, written: &Written) -> String {
    let ends = written.due.iter().filter(|due| due.mark.class == Class::Ends);
    let end = ends.map(|due| due.place).min();
    let counts = |due: &&Due| match (due.mark.class, end) {
        (_, None) => true,
        (Class::Judged, Some(_)) => false,
        (_, Some(end)) => due.place <= end,
    };
    let least = written.due.iter().filter(counts).min_by_key(|due| (due.place, due.mark.number));
    match least {
        Some(due) => refused(due.mark.number, due.place),
        None => planned(table),
    }
}

/// A table that planning mostly takes.
fn good_table(random: &mut Random) -> Table {
    let shape = random.below(SHAPES);
    expressible(table_of_shape(shape, random).to_table())
}

/// A table that planning mostly refuses: no thread, no connection, and rules 2, 4, 5 and 6.
fn bad_table(turn: u64, random: &mut Random) -> Table {
    match turn % 12 {
        0 => Table::default(),
        1 => Table { tasks: vec![Task { period: 5, deadline: 5, priority: 1 }], queues: Vec::new() },
        shape => expressible(refused_table(shape % REFUSED_SHAPES, random).to_table()),
    }
}

/// Without the senders and queues that no connection can say: those of rule 3.
fn expressible(mut table: Table) -> Table {
    let tasks = table.tasks.len();
    let good = |queue: &Queue| queue.receiver < tasks && !queue.senders.is_empty();
    for queue in &mut table.queues {
        queue.senders.retain(|&sender| sender < tasks);
    }
    table.queues.retain(good);
    table
}

fn with_reading_fault(turn: u64, random: &mut Random) -> ModelText {
    let mut model = sound(&good_table(random), random);
    put_reading_fault(&mut model, turn % reading_faults(), 0, random);
    model
}

/// Every reserved word where a NAME is due, then values that are too deep.
fn with_reserved_word_or_depth(turn: u64, random: &mut Random) -> ModelText {
    let mut model = sound(&good_table(random), random);
    match RESERVED.get(turn as usize % 100) {
        Some(word) => put_reserved_word(&mut model, word, random),
        None => put_depth(&mut model, 0, random),
    }
    model
}

/// The kinds of faults take turns; one that the text has no room for gives way to the next.
fn with_judged_fault(turn: u64, random: &mut Random) -> ModelText {
    let mut model = sound(&good_table(random), random);
    let mut kind = turn;
    while !put_judged_fault(&mut model, kind % JUDGED_FAULTS, random) {
        kind += 1;
    }
    model
}

/// Faults of the reading stand by themselves, so their answers are known together; and one of the
/// judgement beside them.
fn with_faults_of_both_kinds(random: &mut Random) -> ModelText {
    let turn = random.below(JUDGED_FAULTS);
    let mut model = with_judged_fault(turn, random);
    for fresh in 0..random.between(1, 3) {
        if random.once_in(12) {
            put_depth(&mut model, fresh, random);
        } else {
            let number = random.below(reading_faults());
            put_reading_fault(&mut model, number, fresh, random);
        }
    }
    model
}

/// The pieces of a text that is to be spoiled.
fn some_pieces(random: &mut Random) -> Vec<Piece> {
    if random.once_in(3) {
        return tiny(random);
    }
    let model = sound(&good_table(random), random);
    let mut pieces = model.pieces(random);
    pieces.retain(|piece| !piece.bytes.is_empty());
    pieces
}
