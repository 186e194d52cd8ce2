// What a sound text may hold beside its table: properties that are skipped, sections, features,
// subcomponents, connections and declarations that are passed over.

use crate::random::Random;
use crate::texts_pieces::{piece, pieces, Pieces};

/// Where an association stands, as far as it decides what is skipped there.
#[derive(Clone, Copy, PartialEq, Debug)]
pub enum Stands {
    AtThread,
    AtPort,
    AtProcess,
    Elsewhere,
}

/// Names of properties that are skipped everywhere, some of them close to those that are read.
const SKIPPED_EVERYWHERE: [&str; 22] = [
    "Source_Text",
    "Compute_Execution_Time",
    "Priorities",
    "Timing_Properties :: Priority",
    "My_Set :: Period",
    "A :: B :: C",
    "Timing_Properties :: Timing",
    "Timing_Properties :: Dispatch_Protocol",
    "Thread_Properties :: Period",
    "Thread_Properties :: Dispatch_Offset",
    "Communication_Properties :: Deadline",
    "Period :: Period",
    "Timing :: Timing",
    "Timing_Properties :: Period :: x",
    "x :: Timing_Properties :: Deadline",
    "Periods",
    "Dead_line",
    "Timing_Properties",
    "ms",
    "Implementations",
    "ends",
    "None_",
];
const AT_THREADS: [&str; 8] = [
    "Period",
    "Deadline",
    "Dispatch_Protocol",
    "Dispatch_Offset",
    "Priority",
    "Timing_Properties :: Deadline",
    "Thread_Properties :: Dispatch_Protocol",
    "Thread_Properties :: Priority",
];
const AT_PORTS: [&str; 2] = ["Timing", "Communication_Properties :: Timing"];

/// An association that is skipped where it stands.
pub fn association(stands: Stands, random: &mut Random) -> Pieces {
    let elsewhere = random.once_in(4);
    let name = match stands {
        Stands::AtThread | Stands::AtProcess if elsewhere => random.pick(&AT_PORTS),
        Stands::AtPort if elsewhere => random.pick(&AT_THREADS),
        Stands::Elsewhere if elsewhere && random.once_in(2) => random.pick(&AT_PORTS),
        Stands::Elsewhere if elsewhere => random.pick(&AT_THREADS),
        _ => random.pick(&SKIPPED_EVERYWHERE),
    };
    let mut list = pieces(name);
    list.push(piece(if random.once_in(5) { "+=>" } else { "=>" }));
    let depth = random.pick(&[0, 1, 1, 2, 3, 8]);
    list.extend(value(depth, random));
    while random.once_in(5) {
        list.push(piece(","));
        list.extend(value(depth, random));
    }
    list.push(piece(";"));
    list
}

pub fn associations(stands: Stands, random: &mut Random) -> Pieces {
    let times = random.below(3);
    (0..times).flat_map(|_| association(stands, random)).collect()
}

/// value = part { part } . No more than `depth` brackets are open at once; the deeper it may get,
/// the less stands side by side.
pub fn value(depth: u64, random: &mut Random) -> Pieces {
    let parts = if depth > 2 { 1 } else { random.pick(&[1, 1, 1, 2, 3]) };
    (0..parts).flat_map(|_| part(depth, random)).collect()
}

const ATOMS: [&str; 38] = [
    "5",
    "1.5",
    "1_000.000_1",
    "1 ms .. 3 ms",
    "1..2",
    "- 5",
    "+ 3 * x",
    "us",
    "true",
    "not a or b",
    "\"a~string;~end\"",
    "\"\"",
    "\"\"\"\"",
    "\"with~\"\"quotes\"\"~--~no~comment\"",
    // A string as long as it gets, and a quote by itself.
    "\"a;\"\"\n",
    "\"\n",
    "{**~an~annex;~end~}~**~**}",
    "{****}",
    "applies to t1 , t2",
    "applies to t1 . p",
    "in modes m",
    "in binding x",
    "Period",
    "Timing",
    "compute f",
    "reference",
    "classifier A :: B . c",
    "-> ->> <->",
    ":: : . ..",
    "# ' & | / \\ ? ! % ^ `",
    "< > = *",
    "thread process implementation",
    "features properties none modes annex",
    "self",
    "constant x",
    "delta",
    "\x7f",
    "\u{e9}",
];

fn part(depth: u64, random: &mut Random) -> Pieces {
    if depth == 0 || (depth < 4 && random.once_in(4)) {
        let atoms = random.pick(&ATOMS);
        // A comma would end a value of a record.
        return pieces(atoms.split(" ,").next().unwrap_or(atoms));
    }
    if random.once_in(3) {
        record(depth, random)
    } else {
        list(depth, random)
    }
}

fn list(depth: u64, random: &mut Random) -> Pieces {
    let mut all = pieces("(");
    let values = if depth > 3 { 1 } else { random.pick(&[0, 1, 1, 1, 2, 3]) };
    for index in 0..values {
        if index > 0 {
            all.push(piece(","));
        }
        all.extend(value(depth - 1, random));
    }
    all.push(piece(")"));
    all
}

fn record(depth: u64, random: &mut Random) -> Pieces {
    let mut all = pieces("[");
    let values = if depth > 3 { 1 } else { random.pick(&[0, 1, 1, 2]) };
    for _ in 0..values {
        all.extend(pieces(random.pick(&["a =>", "Period =>", "Timing =>", "b_1 =>"])));
        all.extend(value(depth - 1, random));
        all.push(piece(";"));
    }
    all.push(piece("]"));
    all
}

/// Brackets to the given depth, all of them open at once.
pub fn nested(depth: u64, random: &mut Random) -> Pieces {
    if depth == 0 {
        return pieces("x");
    }
    let mut all = if random.once_in(2) { pieces("( y ( ) ,") } else { pieces("[ r =>") };
    let in_list = all[0].bytes == b"(";
    // The bracket that is closed at once must not be the one too deep.
    if depth == 1 && in_list {
        all = pieces("(");
    }
    all.extend(nested(depth - 1, random));
    all.extend(pieces(if in_list { ")" } else { "; ]" }));
    all
}

/// A skipped block or none.
fn block(random: &mut Random) -> Pieces {
    if random.once_in(2) {
        return Vec::new();
    }
    let mut all = pieces("{");
    all.extend(associations(Stands::Elsewhere, random));
    all.push(piece("}"));
    all
}

/// The pattern, a block or none, and the `;`: for what ends with rest.
fn with_rest(pattern: &str, random: &mut Random) -> Pieces {
    let mut all = pieces(pattern);
    all.extend(block(random));
    all.push(piece(";"));
    all
}

/// Features that are no ports, and ports with names of their own that nobody uses.
pub fn feature(name: &str, random: &mut Random) -> Pieces {
    const FEATURES: [&str; 8] = [
        "requires data access D",
        "requires bus access",
        "provides subprogram access A :: S . i",
        "provides data access D . i in modes ( m )",
        "feature",
        "feature group inverse of G",
        "requires subprogram group access",
        "feature in [ 3 ] => ( ,",
    ];
    let mut all = pieces(&format!("{name} :"));
    if random.once_in(2) {
        all.extend(with_rest(random.pick(&FEATURES), random));
        return all;
    }
    all.extend(pieces(random.pick(&["in", "out", "in out"])));
    all.extend(pieces(random.pick(&["data port", "event port", "event data port"])));
    all.extend(pieces(random.pick(&["", "D", "A :: D", "A :: B :: D . i"])));
    if random.once_in(2) {
        all.push(piece("{"));
        all.extend(associations(Stands::AtPort, random));
        all.extend(pieces(random.pick(&["", "Timing => Immediate ;", "Timing => anything ;"])));
        all.push(piece("}"));
    }
    all.push(piece(";"));
    all
}

/// Subcomponents that are passed over; their names do not count, so any will do.
pub fn subcomponent(name: &str, random: &mut Random) -> Pieces {
    const SUBCOMPONENTS: [&str; 7] = [
        "data",
        "data D",
        "data A :: D . i",
        "subprogram S",
        "subprogram group G",
        "abstract A [ 3 ]",
        "data D in modes ( m1 , m2 )",
    ];
    let mut all = pieces(&format!("{name} :"));
    all.extend(with_rest(random.pick(&SUBCOMPONENTS), random));
    all
}

/// Connections that are passed over; their names do not count either.
pub fn connection(name: &str, random: &mut Random) -> Pieces {
    const OTHERS: [&str; 9] = [
        "data access d -> t1 . d",
        "data access d <-> t1 . d",
        "bus access b -> c",
        "virtual bus access b <-> c . d",
        "subprogram access s -> t . s",
        "subprogram group access s -> t . s",
        "feature group a . b <-> c",
        "feature a -> b . c",
        "parameter a -> b . c . d",
    ];
    const PASSED_OVER: [&str; 6] =
        ["a -> b", "a ->> t . p", "t . p -> a", "t . p ->> a", "p -> p", "x . y -> x"];
    let mut all = if random.once_in(3) { Vec::new() } else { pieces(&format!("{name} :")) };
    if random.once_in(2) {
        all.extend(with_rest(random.pick(&OTHERS), random));
        return all;
    }
    all.extend(pieces(random.pick(&["port", "data port", "event port", "event data port"])));
    all.extend(pieces(random.pick(&PASSED_OVER)));
    if random.once_in(2) {
        all.push(piece("{"));
        all.extend(associations(Stands::AtPort, random));
        all.extend(pieces(random.pick(&[
            "",
            "Timing => Immediate ;",
            "Communication_Properties :: Timing => x ;",
        ])));
        all.push(piece("}"));
    }
    all.push(piece(";"));
    all
}

/// A section that is skipped in a thread type and a thread implementation.
pub fn thread_section(random: &mut Random) -> Pieces {
    const SECTIONS: [&str; 12] = [
        "prototypes p : thread ;",
        "subcomponents d : data D { Period => 5 us ; Priority => high ; } ;",
        "subcomponents none ;",
        "calls seq : { call1 : subprogram job ; } ;",
        "calls",
        "connections c1 : parameter p_in -> call1 . param_in ;",
        "connections port a . b -> c . d ; port a . b -> c . d ;",
        "flows f : flow source p ; f2 : flow path a -> b ;",
        "modes m1 : initial mode ; m2 : mode ; m1 -[ p ]-> m2 ;",
        "modes none",
        "annex behavior {**~states~s:~initial~state;~end~**} ;",
        "annex x none ; ( [ { => }",
    ];
    pieces(random.pick(&SECTIONS))
}

/// A section that is skipped in a process implementation.
pub fn process_section(random: &mut Random) -> Pieces {
    const SECTIONS: [&str; 7] = [
        "prototypes p : thread group ;",
        "calls seq : { call1 : subprogram job ; } ;",
        "calls",
        "flows f : flow source t1 . p -> c1 -> p ;",
        "annex notes {**~Period~=>~5~us;~**} ;",
        "annex x thread implementation t . i",
        "flows ) ] } ; => Period => 5 us ;",
    ];
    pieces(random.pick(&SECTIONS))
}

/// A declaration that is skipped. Its name is taken by no thread type.
pub fn declaration(name: &str, random: &mut Random) -> Pieces {
    const DECLARATIONS: [&str; 23] = [
        "data N end N ;",
        "data implementation N . i subcomponents x : data ; end N . i ;",
        "subprogram N features p : in parameter D ; properties Execution_Time => 1 ms .. 3 ms ; end N ;",
        "system N features p : in data port ; properties Period => 5 us ; end N ;",
        "system implementation N . i subcomponents p : process p . i ; end N . i ;",
        "system N properties Period => 5 ms ; x applies to y ; end N ;",
        "system N Timing => Delayed applies to y ; end anything :: at . all ;",
        "system N Period , => 5 ms applies to x ; Deadline = > 3 applies ; end N ;",
        "process N features a : in event data port ; end N ;",
        "process N properties Period => 20 ms ; Deadline => 1 end N ;",
        "process N applies Period => 5 ms ; applies to x ; Priority = > 3 applies to t ; end N ;",
        "process N properties Thread_Properties :: Priority => 256 ; x applies to t ; Priority => 5.5 end N ;",
        "device N properties Period => 5 ms applies to x ; Priority => 3 applies to x ; end N ;",
        "processor N { } ) ( [ end N ;",
        "virtual processor N end N ;",
        "virtual bus N Deadline => 5 ms applies to y end N ;",
        "bus N end N ;",
        "memory N public private with x end N ;",
        "abstract implementation N . i subcomponents t : thread t . i { Period => 1 us ; } ; end N . i ;",
        "feature group N features p : out data port ; end N ;",
        "property set N is Period : inherit Time ; Kinds : type units ( a , b => a * 10 ) ; end N ;",
        "thread group N properties Period => 5 ms applies to x ; end N ;",
        "annex notes {**~thread~t~end~t;~**} ;",
    ];
    pieces(&random.pick(&DECLARATIONS).replace('N', name))
}

/// An item of a package that is no declaration.
pub fn package_item(random: &mut Random) -> Pieces {
    const ITEMS: [&str; 8] = [
        "public",
        "private",
        "with Base_Types ;",
        "with a , b :: c , d . e ;",
        "properties none ;",
        "properties",
        "properties Period => 5 us , x ; Timing +=> ( 3 , 4 ) ;",
        "properties My_Set :: Thing => [ a => ( 1 , 2 ) ; b => \"x\" ; ] ;",
    ];
    pieces(random.pick(&ITEMS))
}
