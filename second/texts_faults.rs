// Puts faults of the reading into a sound text: the patterns of texts_patterns.rs, values that are
// too deep, and reserved words where a NAME is due.

use crate::random::Random;
use crate::texts_model::ModelText;
use crate::texts_noise::nested;
use crate::texts_patterns::{Where, PATTERNS};
use crate::texts_pieces::{piece, pieces, Class, Mark, Pieces};

/// How many patterns there are to choose from.
pub fn reading_faults() -> u64 {
    PATTERNS.iter().map(|(_, list)| list.len() as u64).sum()
}

/// Puts a fault of the reading into a text: the pattern of this number, from 0 to
/// `reading_faults()` - 1. Names that it needs are made from `fresh`.
pub fn put_reading_fault(model: &mut ModelText, number: u64, fresh: u64, random: &mut Random) {
    let mut left = number as usize;
    for (place, list) in PATTERNS {
        if let Some(pattern) = list.get(left) {
            return put(model, place, pattern, fresh, random);
        }
        left -= list.len();
    }
}

fn put(model: &mut ModelText, place: Where, pattern: &str, fresh: u64, random: &mut Random) {
    let fault = named(pattern, fresh);
    match place {
        Where::InNoPackage => model.behind.push(fault),
        Where::Declaration => model.declarations.push(fault),
        Where::InAType => model.declarations.push(inside("thread zz", fault, "end zz ;", fresh)),
        Where::InAnImplementation => {
            model.declarations.push(inside("thread implementation zz . i", fault, "end zz . i ;", fresh));
        }
        Where::InTheProcess => model.process_skipped.push(fault),
        Where::Subcomponent => model.subcomponents.push(fault),
        Where::Connection => model.other_connections.push(fault),
        Where::Association => put_association(model, fault, fresh, random),
        Where::ThreadProperty => put_thread_property(model, pattern, fresh, random),
        Where::PortProperty if random.once_in(2) => {
            let before = "thread zz features p : out event data port D {";
            model.declarations.push(inside(before, fault, "} ; end zz ;", fresh));
        }
        Where::PortProperty => model.other_connections.push(inside("port a -> b {", fault, "} ;", fresh)),
        Where::ProcessProperty => model.process_properties.push(fault),
    }
}

/// In a type or an implementation that no thread has, or in the block of a further thread.
fn put_thread_property(model: &mut ModelText, pattern: &str, fresh: u64, random: &mut Random) {
    let names = ["Period", "Deadline", "Timing_Properties :: Period", "Timing_Properties :: Deadline"];
    let property = pieces(&pattern.replace("P ", &format!("{} ", random.pick(&names))));
    match random.below(3) {
        0 => model.declarations.push(inside("thread zz properties", property, "end zz ;", fresh)),
        1 => {
            let before = "thread implementation zz . i properties none ; properties";
            model.declarations.push(inside(before, property, "end zz . i ;", fresh));
        }
        _ => {
            // The type gives the thread all that its block lacks. A Dispatch_Offset or another
            // Dispatch_Protocol is 20 at the thread's NAME.
            model.declarations.push(named("thread zz properties Period => 7 ms ; end zz ;", fresh));
            let begins = |word: &str| pattern.starts_with(word);
            let is_refused = begins("Dispatch_Offset") || begins("Dispatch_Protocol => Sporadic");
            let mark = if is_refused { "@20j" } else { "" };
            let before = format!("{mark} zt{fresh} : thread zz {{");
            model.subcomponents.push(inside(&before, property, "} ;", fresh));
        }
    }
}

/// Puts a reserved word into a text where a NAME is due.
pub fn put_reserved_word(model: &mut ModelText, word: &str, random: &mut Random) {
    let patterns = [
        (Where::Declaration, "thread implementation zz . @20e W end zz . W ;"),
        (Where::Declaration, "thread zz extends @20e W end zz ;"),
        (Where::Declaration, "data d end d :: @20e W ;"),
        (Where::InNoPackage, "package p with x , @20e W ; end p ;"),
        (Where::InAType, "features p : in data port D . @20e W ;"),
        (Where::Subcomponent, "x : thread a :: @20e W ;"),
        (Where::Connection, "port a . @20e W -> b ;"),
        (Where::Connection, "port a -> @20e W . b ;"),
        (Where::Association, "x :: @20e W => 5 ;"),
        (Where::Association, "x => [ @20e W => 5 ; ] ;"),
        (Where::ThreadProperty, "P => @22n 5 @20e W ;"),
        (Where::ThreadProperty, "Dispatch_Protocol => @20e W ;"),
        (Where::ThreadProperty, "Priority => @20e W ;"),
        (Where::PortProperty, "Timing => @20e W ;"),
    ];
    let (place, pattern) = random.pick(&patterns);
    put(model, place, &pattern.replace('W', word), 0, random);
}

fn named(pattern: &str, fresh: u64) -> Pieces {
    pieces(&pattern.replace("zz", &format!("zz{fresh}")))
}

fn inside(before: &str, middle: Pieces, behind: &str, fresh: u64) -> Pieces {
    [named(before, fresh), middle, named(behind, fresh)].concat()
}

/// The association anywhere where one may stand.
fn put_association(model: &mut ModelText, association: Pieces, fresh: u64, random: &mut Random) {
    let inside = |before: &str, behind: &str| inside(before, association.clone(), behind, fresh);
    match random.below(12) {
        0 => model.declarations.push(inside("thread zz properties", "end zz ;")),
        1 => model.declarations.push(inside("thread implementation zz . i properties", "end zz . i ;")),
        2 => model.declarations.push(inside("thread zz features p : in data port {", "} ; end zz ;")),
        3 => model.declarations.push(inside("thread zz features p : requires data access {", "} ; end zz ;")),
        4 => model.behind.push(inside("package p properties", "end p ;")),
        5 => model.subcomponents.push(inside("d : data {", "} ;")),
        6 => model.other_connections.push(inside("port a -> b {", "} ;")),
        7 => model.other_connections.push(inside("c : data access a -> b {", "} ;")),
        8 if !model.threads.is_empty() => {
            let thread = random.below(model.threads.len() as u64) as usize;
            let block = &mut model.threads[thread].block;
            let place = random.below(block.len() as u64 + 1) as usize;
            block.insert(place, association);
        }
        9 if !model.connections.is_empty() => {
            let connection = random.below(model.connections.len() as u64) as usize;
            model.connections[connection].block.extend(association);
        }
        10 if !model.types.is_empty() => {
            let index = random.below(model.types.len() as u64) as usize;
            model.types[index].properties.push(vec![association]);
        }
        _ => model.process_properties.push(association),
    }
}

/// Puts a value that is too deep into a text.
pub fn put_depth(model: &mut ModelText, fresh: u64, random: &mut Random) {
    let association = too_deep(random);
    put_association(model, association, fresh, random);
}

/// A value with nine brackets open: 23 at the ninth.
fn too_deep(random: &mut Random) -> Pieces {
    let name = random.pick(&["x", "Priorities", "Source_Text", "a :: b"]);
    let mut all = pieces(&format!("{name} =>"));
    if random.once_in(3) {
        all.extend(nested(8, random));
        all.push(piece(","));
    }
    let depth = random.pick(&[9, 9, 10, 20]);
    let mut open = 0;
    for mut piece in nested(depth, random) {
        match piece.bytes.as_slice() {
            b"(" | b"[" => open += 1,
            b")" | b"]" => open -= 1,
            _ => {}
        }
        if open == 9 && matches!(piece.bytes.as_slice(), b"(" | b"[") {
            piece.marks.push(Mark { class: Class::Ends, number: 23 });
        }
        all.push(piece);
    }
    all.push(piece(";"));
    all
}
