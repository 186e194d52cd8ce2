// Small texts that follow the grammar with very few names, so that most of the judgement's cases
// meet: names declared twice or not at all, ways in a circle, ports of every direction, threads
// without a Period, connections alike. Nobody knows their answers beforehand.

use crate::random::Random;
use crate::texts_pieces::{piece, pieces, Pieces};

const TYPES: [&str; 4] = ["a", "b", "c", "d"];
const THREADS: [&str; 5] = ["a", "t", "u", "v", "w"];
const PORTS: [&str; 3] = ["p", "q", "a"];

pub fn tiny(random: &mut Random) -> Pieces {
    let mut list: Vec<Pieces> = Vec::new();
    // The more careful, the fewer faults.
    let care = random.pick(&[2, 6, 6, 20, 20]);
    for name in some(&TYPES, care, random) {
        list.push(thread_type(name, care, random));
    }
    for _ in 0..random.below(3) {
        list.push(implementation(care, random));
    }
    let place = random.below(list.len() as u64 + 1) as usize;
    list.insert(place, process(care, random));
    if random.once_in(6 * care) {
        list.push(process(care, random));
    }
    if random.once_in(4 * care) {
        list.remove(place);
    }
    list.concat()
}

/// Most of the names, each once; with little care one of them twice.
fn some(names: &[&'static str], care: u64, random: &mut Random) -> Vec<&'static str> {
    let mut list: Vec<&'static str> = names.iter().copied().filter(|_| !random.once_in(3)).collect();
    if random.once_in(2 * care) {
        list.push(random.pick(names));
    }
    list
}

fn thread_type(name: &str, care: u64, random: &mut Random) -> Pieces {
    let mut all = pieces(&format!("thread {name}"));
    if random.once_in(2) {
        all.extend(pieces(&format!("extends {}", random.pick(&["a", "b", "c", "d", "e", "x :: a"]))));
    }
    all.push(piece("features"));
    for port in some(&PORTS, care, random) {
        all.extend(feature(port, care, random));
    }
    if random.once_in(2) {
        all.push(piece("properties"));
        all.extend(properties(care, random));
    }
    all.extend(pieces(&format!("end {name} ;")));
    all
}

fn feature(name: &str, care: u64, random: &mut Random) -> Pieces {
    if random.once_in(2 * care) {
        return pieces(&format!("{name} : requires data access ;"));
    }
    let direction = random.pick(&["in", "out", "in out", "in out", "in out", "in out"]);
    let timing = if random.once_in(care) {
        random.pick(&["", "{ Timing => Immediate ; }"])
    } else {
        "{ Timing => Delayed ; }"
    };
    pieces(&format!("{name} : {direction} event data port {timing} ;"))
}

fn implementation(care: u64, random: &mut Random) -> Pieces {
    let name = format!("{} . {}", random.pick(&TYPES), random.pick(&["i", "j", "a"]));
    let mut all = pieces(&format!("thread implementation {name} properties"));
    all.extend(properties(care, random));
    all.extend(pieces(&format!("end {name} ;")));
    all
}

fn properties(care: u64, random: &mut Random) -> Pieces {
    let mut all = Vec::new();
    if !random.once_in(2) {
        all.extend(pieces(&format!("Period => {} ms ;", random.between(1, 12))));
    }
    if random.once_in(3) {
        all.extend(pieces(&format!("Deadline => {} ms ;", random.between(1, 6))));
    }
    if random.once_in(6) {
        all.extend(pieces("Dispatch_Protocol => Periodic ;"));
    }
    if random.once_in(3) {
        all.extend(pieces(&format!("Priority => {} ;", random.below(4))));
    }
    if random.once_in(6 * care) {
        all.extend(pieces(random.pick(&[
            "Dispatch_Offset => 3 ms ;",
            "Dispatch_Protocol => Sporadic ;",
            "Deadline => 5 us ;",
            "Deadline => 0.5 ms ;",
            "Period => 5 ;",
            "Period => 1 ms ;",
            "Priority => 9 ;",
            "Priority => 256 ;",
            "Priority => 9.0 ;",
        ])));
    }
    all
}

fn process(care: u64, random: &mut Random) -> Pieces {
    let mut all = pieces("process implementation p . i subcomponents");
    let threads = some(&THREADS, care, random);
    for name in &threads {
        all.extend(thread(name, care, random));
    }
    if random.once_in(8) {
        all.extend(pieces("a : data ;"));
    }
    all.push(piece("connections"));
    for index in 0..random.between(1, 5) {
        all.extend(connection(index, &threads, care, random));
    }
    all.extend(pieces("end p . i ;"));
    all
}

fn thread(name: &str, care: u64, random: &mut Random) -> Pieces {
    let type_name = if random.once_in(care) { "e" } else { random.pick(&TYPES) };
    let implementation = random.pick(&["", ". i", ". j", ". a"]);
    let mut all = pieces(&format!("{name} : thread {type_name} {implementation} {{"));
    if !random.once_in(care) {
        all.extend(pieces(&format!("Period => {} ms ;", random.between(6, 12))));
    }
    if random.once_in(3) {
        all.extend(pieces(&format!("Deadline => {} ms ;", random.between(1, 7))));
    }
    if random.once_in(4) {
        all.extend(pieces("Dispatch_Protocol => Periodic ;"));
    }
    if random.once_in(3) {
        all.extend(pieces(&format!("Priority => {} ;", random.below(4))));
    }
    all.extend(pieces("} ;"));
    all
}

fn connection(index: u64, threads: &[&str], care: u64, random: &mut Random) -> Pieces {
    let name = match random.below(3) {
        0 => String::new(),
        1 if random.once_in(care) => random.pick(&["c0 :", "c1 :", "a :"]).to_string(),
        _ => format!("c{index} :"),
    };
    let place = |random: &mut Random| {
        let thread = if threads.is_empty() || random.once_in(4 * care) {
            random.pick(&THREADS)
        } else {
            random.pick(threads)
        };
        if random.once_in(12) {
            return thread.to_string();
        }
        format!("{thread} . {}", random.pick(&PORTS))
    };
    let (from, to) = (place(random), place(random));
    let arrow = random.pick(&["->", "->", "->>"]);
    let block = if random.once_in(3 * care) {
        "{ Timing => Immediate ; }"
    } else {
        random.pick(&["", "", "{ Timing => Delayed ; }"])
    };
    pieces(&format!("{name} port {from} {arrow} {to} {block} ;"))
}
