// Faults that only the judgement of a whole text finds, by the table of AADL.md's section 6, each
// put into a sound text with the refusal marked where it is due.

use crate::random::Random;
use crate::texts_model::{unmarked, ConnectionText, ModelText, PortText, ThreadText, TypeText};
use crate::texts_pieces::{marked, piece, pieces, Class, Mark, Piece};

const JUDGED: Class = Class::Judged;

/// A thread type and the block of its thread: 20 at the thread's NAME.
const BAD_THREADS: [(&str, &str); 14] = [
    ("thread zz end zz ;", ""),
    ("thread zz properties Deadline => 5 ms ; end zz ;", "Deadline => 5 ms ;"),
    ("thread zz end zz ;", "My :: Period => 5 ms ;"),
    ("thread zz features p : in data port { Period => 5 ms ; } ; end zz ;", "Timing => Delayed ;"),
    ("thread zz extends nowhere end zz ;", "Priority => 3 ;"),
    ("thread zz end zz ;", "Period => 5 ms ; Dispatch_Protocol => Sporadic ;"),
    ("thread zz properties Period => 5 ms ; Thread_Properties :: Dispatch_Protocol => x ; end zz ;", ""),
    ("thread zz properties Dispatch_Protocol => Periodic_ ; end zz ;", "Period => 0.005 sec ;"),
    (
        "thread zz properties Dispatch_Protocol => Periodic ; end zz ;",
        "Period => 5 ms ; Dispatch_Protocol => Hybrid ;",
    ),
    ("thread zz properties Dispatch_Offset => 0 ms ; end zz ;", "Period => 5 ms ;"),
    ("thread zz end zz ;", "Period => 5 ms ; Timing_Properties :: Dispatch_Offset => ( ) ;"),
    (
        "thread zz extends zy end zz ; thread zy properties Dispatch_Offset => 1 ; end zy ;",
        "Period => 5 ms ;",
    ),
    (
        "thread zz extends a :: zy end zz ; \
         thread zy properties Period => 5 ms ; Dispatch_Protocol => Timed ; end zy ;",
        "",
    ),
    ("thread implementation zz . j properties Period => 5 ms ; end zz . j ; thread zz end zz ;", ""),
];

/// A declaration and the type's name and implementation in the classifier: 21 at the type's name.
const UNKNOWN_TYPES: [(&str, Option<&str>); 6] = [
    ("", None),
    ("", Some("i")),
    ("thread implementation zz . i end zz . i ;", None),
    ("thread implementation zz . i end zz . i ;", Some("j")),
    ("thread implementation i . zz end i . zz ;", Some("i")),
    ("thread group zz end zz ; data zz end zz ; thread zzz end zzz ;", None),
];

pub const JUDGED_FAULTS: u64 = 24;

/// Puts the fault of this kind into the model; no if the model has nothing to put it into.
pub fn put_judged_fault(model: &mut ModelText, kind: u64, random: &mut Random) -> bool {
    match kind {
        0 => no_process(model),
        1 => second_process(model),
        2 => second_type(model, random),
        3 => second_implementation(model, random),
        4 => second_port(model, random),
        5 => second_thread(model, random),
        6 => second_connection_name(model, random),
        7..=9 => bad_thread(model, random),
        10 | 11 => unknown_type(model, random),
        12 => changed(model, random, |connection, _| connection.sender = due("nobody", 21)),
        13 => changed(model, random, |connection, random| {
            connection.receiver = due("nobody", 21);
            // "not its ports"
            if random.once_in(2) {
                connection.out_port = piece("nowhere");
            }
            connection.timing = random.pick(&[None, Some("Immediate"), Some("Delayed")]).map(str::to_string);
        }),
        14 => changed(model, random, |connection, _| {
            // "not its ports, nor 24"
            connection.sender = due("nobody", 21);
            connection.receiver = due("no_one", 21);
            connection.out_port = piece("nowhere");
            connection.in_port = piece("nowhere");
        }),
        15 => changed(model, random, |connection, random| {
            connection.out_port = due("nowhere", 21);
            // "the Timing is then not judged"
            connection.timing = random.pick(&[None, Some("Immediate")]).map(str::to_string);
        }),
        16 => changed(model, random, |connection, random| {
            connection.out_port = due_again(&connection.out_port, 20);
            connection.timing = Some(random.pick(&["Immediate", "Sampled", "Delayed_"]).to_string());
        }),
        17 => other_output_port(model, random),
        18 => other_input_port(model, random),
        19 => missing_input_port(model, random),
        20 => second_property(model, random),
        _ => alike(model, random),
    }
}

fn due(text: &str, number: u8) -> Piece {
    marked(text, JUDGED, number)
}

fn due_again(named: &Piece, number: u8) -> Piece {
    Piece { bytes: named.bytes.clone(), marks: vec![Mark { class: JUDGED, number }] }
}

fn no_process(model: &mut ModelText) -> bool {
    model.without_process = true;
    model.end_marks.push(Mark { class: JUDGED, number: 20 });
    true
}

/// Its own faults are all behind its "process".
fn second_process(model: &mut ModelText) -> bool {
    let pattern = "@20j process implementation zz . i subcomponents T1 : thread nowhere ; \
                   connections port T1 . a -> T2 . b ; end zz . i ;";
    model.last.push(pieces(pattern));
    true
}

fn second_type(model: &mut ModelText, random: &mut Random) -> bool {
    let Some(index) = any_index(&model.types, random) else {
        return false;
    };
    let name = &model.types[index].name;
    let mut again = vec![piece("thread"), due_again(name, 20)];
    again.extend(pieces(random.pick(&["", "extends x", "properties Dispatch_Offset => 5 ;"])));
    again.extend([piece("end"), unmarked(name), piece(";")]);
    model.last.push(again);
    true
}

fn second_implementation(model: &mut ModelText, random: &mut Random) -> bool {
    let Some(index) = any_index(&model.implementations, random) else {
        return false;
    };
    let declared = &model.implementations[index];
    let name = &declared.type_name;
    let again = vec![
        pieces("thread implementation"),
        vec![due_again(name, 20), piece("."), piece(&declared.name)],
        pieces(random.pick(&["", "properties Period => 1 ms ;", "properties Dispatch_Offset => 5 ;"])),
        vec![piece("end"), unmarked(name), piece("."), piece(&declared.name), piece(";")],
    ];
    model.last.push(again.concat());
    true
}

fn second_port(model: &mut ModelText, random: &mut Random) -> bool {
    let with_ports: Vec<usize> =
        (0..model.types.len()).filter(|&index| !model.types[index].ports.is_empty()).collect();
    if with_ports.is_empty() {
        return false;
    }
    let ports = &mut model.types[random.pick(&with_ports)].ports;
    let mut again = ports[random.below(ports.len() as u64) as usize].clone();
    again.name = due_again(&again.name, 20);
    again.direction = random.pick(&["in", "out", "in out"]);
    ports.push(again);
    true
}

fn second_thread(model: &mut ModelText, random: &mut Random) -> bool {
    let Some(index) = any_index(&model.threads, random) else {
        return false;
    };
    let mut again = model.threads[index].clone();
    again.name = due_again(&again.name, 20);
    if random.once_in(2) {
        // "the first counts", also for connections before both.
        again.type_name = piece("nowhere");
    }
    model.threads.push(again);
    true
}

fn second_connection_name(model: &mut ModelText, random: &mut Random) -> bool {
    let named: Vec<usize> =
        (0..model.connections.len()).filter(|&c| model.connections[c].name.is_some()).collect();
    if named.is_empty() {
        return false;
    }
    let first = random.pick(&named);
    let name = model.connections[first].name.clone().expect("it is named");
    let Some(later) = any_index(&model.connections[first + 1..], random) else {
        return false;
    };
    model.connections[first + 1 + later].name = Some(due_again(&name, 20));
    true
}

fn bad_thread(model: &mut ModelText, random: &mut Random) -> bool {
    let (declared, block) = random.pick(&BAD_THREADS);
    model.declarations.push(pieces(declared));
    let mut thread = fresh_thread("zz");
    thread.name = due("zt", 20);
    thread.block = if block.is_empty() { Vec::new() } else { vec![pieces(block)] };
    add_thread(model, thread, random);
    true
}

fn unknown_type(model: &mut ModelText, random: &mut Random) -> bool {
    let (declared, implementation) = random.pick(&UNKNOWN_TYPES);
    model.declarations.push(pieces(declared));
    let mut thread = fresh_thread("zz");
    thread.type_name = due("zz", 21);
    thread.implementation = implementation.map(str::to_string);
    thread.prefix = random.pick(&["", "a ::", "nowhere :: zz ::"]);
    add_thread(model, thread, random);
    true
}

/// A thread with all it needs but a type.
fn fresh_thread(type_name: &str) -> ThreadText {
    ThreadText {
        name: piece("zt"),
        prefix: "",
        type_name: piece(type_name),
        implementation: None,
        block: vec![pieces("Period => 5 ms ;")],
    }
}

fn add_thread(model: &mut ModelText, thread: ThreadText, random: &mut Random) {
    let place = random.below(model.threads.len() as u64 + 1) as usize;
    model.threads.insert(place, thread);
}

fn changed(
    model: &mut ModelText,
    random: &mut Random,
    change: impl Fn(&mut ConnectionText, &mut Random),
) -> bool {
    let Some(index) = any_index(&model.connections, random) else {
        return false;
    };
    change(&mut model.connections[index], random);
    true
}

/// The index of the type of the thread with this name, if it stands in the text.
fn type_of_thread(model: &ModelText, thread: &Piece) -> Option<usize> {
    let found = model.threads.iter().find(|t| t.name.bytes == thread.bytes)?;
    model.types.iter().position(|t| t.name.bytes == found.type_name.bytes)
}

fn add_port(of: &mut TypeText, name: &str, direction: &'static str, timing: Option<&str>) {
    let timing = timing.map(str::to_string);
    of.ports.push(PortText {
        name: piece(name),
        direction,
        kind: "data port",
        classifier: "",
        timing,
        block: Vec::new(),
    });
}

/// A port that is in alone, or one that is out without Delayed, where nothing else says Delayed.
fn other_output_port(model: &mut ModelText, random: &mut Random) -> bool {
    let Some(index) = any_index(&model.connections, random) else {
        return false;
    };
    let Some(of) = type_of_thread(model, &model.connections[index].sender) else {
        return false;
    };
    let (direction, timing) = random.pick(&[
        ("in", Some("Delayed")),
        ("out", None),
        ("out", Some("Immediate")),
        ("in out", Some("Delay")),
    ]);
    add_port(&mut model.types[of], "z_out", direction, timing);
    let connection = &mut model.connections[index];
    connection.out_port = due("z_out", 20);
    if direction != "in" {
        connection.arrow = "->";
        connection.timing = None;
    }
    true
}

fn other_input_port(model: &mut ModelText, random: &mut Random) -> bool {
    let Some(index) = any_index(&model.connections, random) else {
        return false;
    };
    let Some(of) = type_of_thread(model, &model.connections[index].receiver) else {
        return false;
    };
    add_port(&mut model.types[of], "z_in", "out", None);
    model.connections[index].in_port = due("z_in", 20);
    true
}

/// A receiver whose types all stand in the text, none of them with the port.
fn missing_input_port(model: &mut ModelText, random: &mut Random) -> bool {
    let Some(index) = any_index(&model.connections, random) else {
        return false;
    };
    let types = [
        "thread zz end zz ;",
        "thread zz features p : in data port ; nowhere : requires data access ; end zz ;",
        "thread zz extends zy end zz ; thread zy features nowhere_ : in data port ; end zy ;",
    ];
    model.declarations.push(pieces(random.pick(&types)));
    add_thread(model, fresh_thread("zz"), random);
    let mut further = model.connections[index].clone();
    further.name = None;
    further.receiver = piece("zt");
    further.in_port = due("nowhere", 21);
    model.connections.push(further);
    true
}

/// A second property that is 20 by itself and, if it counted, at a lower place as well.
fn second_property(model: &mut ModelText, random: &mut Random) -> bool {
    if random.once_in(2) {
        return changed(model, random, |connection, random| {
            connection.timing = Some("Delayed".to_string());
            let name = random.pick(&["Timing", "Communication_Properties :: Timing"]);
            connection.block = pieces(&format!("@20n {name} => Immediate ;"));
        });
    }
    model.declarations.push(pieces("thread zz end zz ;"));
    let mut thread = fresh_thread("zz");
    thread.block.extend([
        pieces("Dispatch_Protocol => Periodic ;"),
        pieces("@20n Thread_Properties :: Dispatch_Protocol => Sporadic ;"),
    ]);
    add_thread(model, thread, random);
    true
}

/// The same connection once more; its output port may be another, and its name too.
fn alike(model: &mut ModelText, random: &mut Random) -> bool {
    let Some(index) = any_index(&model.connections, random) else {
        return false;
    };
    let mut again = model.connections[index].clone();
    again.marks.push(Mark { class: JUDGED, number: 24 });
    match random.below(4) {
        // At one place the lower number.
        0 => again.name = again.name.map(|name| due_again(&name, 20)),
        1 => again.name = Some(piece("z_again")),
        _ => again.name = None,
    }
    if random.once_in(4) {
        // 21 there, but 24 is before it.
        again.out_port = due("nowhere", 21);
    }
    let place = random.between(index as u64 + 1, model.connections.len() as u64) as usize;
    model.connections.insert(place, again);
    true
}

fn any_index<T>(list: &[T], random: &mut Random) -> Option<usize> {
    if list.is_empty() {
        return None;
    }
    Some(random.below(list.len() as u64) as usize)
}
