// Texts reckoned by hand for the places where AADL.md is easy to misread. A `^` stands directly
// before the token where the refusal is due and is no part of the text; `\n`, where it stands, is.

use crate::aadl::{answer, refused, MOST_BYTES};
use crate::aadl_texts::{READING_FAULTS, TURN};
use crate::aadl_tokens::{tokens, Sort, RESERVED};
use crate::check::shown;
use crate::texts_faults::reading_faults;
use crate::TEXTS;

/// With the priorities of Listing 1.
const TABLE_A: &str = "010005000503\n010007000702\n01000a000a01\n02020003\n03\n";

/// Listing 1 of source 000 without its line numbers.
const LISTING_1: &str = "\
process implementation proc.impl
subcomponents
  T1: thread producer.impl {Period => 5 ms;
    Deadline => 5 ms; Priority => 3; };
  T2: thread producer.impl {Period => 7 ms;
    Deadline => 7 ms; Priority => 2; };
  T3: thread consumer.impl {Period => 10 ms;
    Deadline => 10 ms; Priority => 1; };
connections
  cnx1: port T1.p_out -> T3.p_in;
  cnx2: port T2.p_out -> T3.p_in;
end proc.impl;

thread producer extends Periodic_Thread
features
  p_out: out event data port MyType
    { Timing => Delayed; };
end producer;

thread implementation consumer.impl
calls
  seq: { call1: subprogram consumer_job; };
connections
  cnx1: parameter p_in -> call1.param_in;
end consumer.impl;

subprogram consumer_job
features
  param_in: in parameter MyType;
properties
  Execution_Time => 1 ms .. 3 ms;
  Source_Stack_Size => 40 Kbytes;
end consumer_job;
";

/// A sender and a receiver: tasks 4/4 and 6/5, one queue.
const SMALL: &str = "\
thread s features o: out data port {Timing => Delayed;}; i: in data port; x: in out event port; end s;
process implementation p.i
subcomponents
a: thread s {Period => 4 ms;};
b: thread s {Period => 6 ms; Deadline => 5 ms;};
connections
c: port a.o -> b.i;
end p.i;
";
const SMALL_TABLE: &str = "010004000400\n010006000500\n02010001\n03\n";

fn taken(text: &str, lines: &str) {
    assert_eq!(answer(text.as_bytes()), lines, "{}", shown(text.as_bytes()));
}

/// The `^` marks the place of the refusal.
fn refused_at_mark(number: u8, marked: &str) {
    let place = marked.find('^').expect("a marked place");
    let text = marked.replacen('^', "", 1);
    assert_eq!(answer(text.as_bytes()), refused(number, place), "{}", shown(text.as_bytes()));
}

/// SMALL with one part of it replaced.
fn small(from: &str, to: &str) -> String {
    assert!(SMALL.contains(from), "no {} in it", from);
    SMALL.replacen(from, to, 1)
}

fn small_taken(from: &str, to: &str) {
    taken(&small(from, to), SMALL_TABLE);
}

fn small_refused(number: u8, from: &str, to: &str) {
    refused_at_mark(number, &small(from, to));
}

#[test]
fn listing_1_gives_table_a() {
    taken(LISTING_1, TABLE_A);
    taken(&LISTING_1.to_uppercase(), TABLE_A);
    taken(&LISTING_1.replace('\n', "\r\n"), TABLE_A);
    taken(&format!("\u{feff}{LISTING_1}"), TABLE_A);
    taken(SMALL, SMALL_TABLE);
}

#[test]
fn a_text_without_a_process() {
    assert_eq!(answer(b""), "7f1400000000\n");
    assert_eq!(answer(b"\xef\xbb\xbf"), "7f1400000003\n");
    assert_eq!(answer(b" -- process"), "7f140000000b\n");
    refused_at_mark(20, "thread t end t; ^");
    // The three bytes are blanks only where the text begins.
    refused_at_mark(20, " ^\u{feff}thread t end t;");
    refused_at_mark(20, "\u{feff}^\u{feff}thread t end t;");
}

#[test]
fn places_are_bytes() {
    refused_at_mark(20, "-- \u{e9}\u{e9}\n^\u{e9}");
    refused_at_mark(20, "\u{feff}-- \u{1f600}\r\n\t\u{b}\u{c}^x");
    small_refused(22, "6 ms", "-- \u{e9}\n6 ^us");
}

fn sorts(text: &str) -> Vec<(String, Sort)> {
    let list = tokens(text.as_bytes());
    list.iter().map(|t| (String::from_utf8_lossy(&t.bytes).to_string(), t.sort)).collect()
}

fn cut_into(text: &str, parts: &[&str]) {
    let found: Vec<String> = sorts(text).into_iter().map(|(bytes, _)| bytes).collect();
    let mut wanted: Vec<&str> = parts.to_vec();
    wanted.push("");
    assert_eq!(found, wanted, "{text:?}");
}

#[test]
fn the_longest_token_counts() {
    assert_eq!(RESERVED.len(), 69);
    cut_into("a1_b", &["a1_b"]);
    cut_into("1a", &["1", "a"]);
    cut_into("1.5.2", &["1.5", ".", "2"]);
    cut_into("1..2", &["1", "..", "2"]);
    cut_into("1...2", &["1", "..", ".", "2"]);
    cut_into("1_.5_", &["1_.5_"]);
    cut_into("1._5", &["1", ".", "_", "5"]);
    cut_into("1.", &["1", "."]);
    cut_into("a.b.1", &["a", ".", "b", ".", "1"]);
    cut_into("+=>=>->->><->:::...", &["+=>", "=>", "->", "->>", "<->", "::", ":", "..", "."]);
    cut_into("<->>", &["<->", ">"]);
    cut_into("<-->\n>", &["<", ">"]);
    cut_into("+= > =", &["+", "=", ">", "="]);
    cut_into("-->\n->", &["->"]);
    cut_into("a--b\"{**\nc", &["a", "c"]);
    cut_into("- -", &["-", "-"]);
    cut_into("--", &[]);
}

#[test]
fn strings_and_annexes() {
    cut_into("\"a\"\"b\" c", &["\"a\"\"b\"", "c"]);
    cut_into("\"a--b\r\"", &["\"a--b\r\""]);
    cut_into("\"\"", &["\"\""]);
    // The longest string, and a quote by itself.
    cut_into("\"a\"\"\nb", &["\"a\"", "\"", "b"]);
    cut_into("\"\"\"\n", &["\"\"", "\""]);
    cut_into("\"a\"\"b\"\"c\nd", &["\"a\"\"b\"", "\"", "c", "d"]);
    cut_into("\"a", &["\"", "a"]);
    cut_into("\"a\n\"b\"", &["\"", "a", "\"b\""]);
    cut_into("{** a ** } **}b", &["{** a ** } **}", "b"]);
    cut_into("{****}", &["{****}"]);
    cut_into("{***}", &["{", "*", "*", "*", "}"]);
    cut_into("{**}", &["{", "*", "*", "}"]);
    cut_into("{**}**}", &["{**}**}"]);
    cut_into("{**-- \"\n**}**}", &["{**-- \"\n**}", "*", "*", "}"]);
    cut_into("**}{**", &["*", "*", "}", "{", "*", "*"]);
}

#[test]
fn packages() {
    let in_package = format!("package a::b public with x, y::z; {SMALL} private end other.name;");
    taken(&in_package, SMALL_TABLE);
    refused_at_mark(20, &format!("{SMALL} ^with x;"));
    refused_at_mark(20, "package p ^package q end q; end p;");
    refused_at_mark(20, "package p properties none; ^x => 5; end p;");
    // Properties of a package are skipped by `value`.
    taken(&format!("package p properties Period => 5 us, x; end p; {SMALL}"), SMALL_TABLE);
    refused_at_mark(20, "package p properties Period => ^; end p;");
    refused_at_mark(20, "package p public end p^");
}

#[test]
fn names_after_end() {
    small_taken("end s;", "end S;");
    small_taken("end p.i;", "END P . I ;");
    small_refused(20, "end s;", "end ^x;");
    small_refused(20, "end p.i;", "end ^i.i;");
    small_refused(20, "end p.i;", "end p.^p;");
    small_refused(20, "end p.i;", "end p^;");
    small_refused(20, "end s;", "end s^.i;");
    // An other and a package end with any path.
    taken(&format!("data d end x::y.z; {SMALL}"), SMALL_TABLE);
    refused_at_mark(20, "data d end ^; x");
    refused_at_mark(20, "data d end ^end;");
}

#[test]
fn thread_groups_and_processes_that_are_no_implementations() {
    taken(&format!("thread group g features ( [ {{ end g; {SMALL}"), SMALL_TABLE);
    small_refused(20, "a: thread s", "a: thread ^group g; b: thread s");
    taken(&format!("process p features x: in data port; end p; {SMALL}"), SMALL_TABLE);
    refused_at_mark(20, "process^");
    refused_at_mark(20, "thread^");
    refused_at_mark(20, "process implementation ^");
}

#[test]
fn properties_that_reach_a_thread_from_outside() {
    let with = |first: &str| format!("{first} {SMALL}");
    refused_at_mark(20, &with("process x ^Period => 5 ms applies to x; end x;"));
    refused_at_mark(20, &with("system x Timing_Properties::^Deadline +=> 5 ms applies to x; end x;"));
    refused_at_mark(20, &with("system implementation x.i ^Dispatch_Offset => (a, b) applies end x.i;"));
    refused_at_mark(20, &with("system x ^Period => Deadline => 5 applies to x; end x;"));
    // Not directly, not before the next `;`, not before "end", in no other that counts.
    taken(&with("process x Period = > 5 ms applies to x; end x;"), SMALL_TABLE);
    taken(&with("process x Period => 5 ms; applies to x; end x;"), SMALL_TABLE);
    taken(&with("process x Period => 5 ms end x; data applies end x;"), SMALL_TABLE);
    taken(&with("process x applies Period => 5 ms; end x;"), SMALL_TABLE);
    taken(
        &with("process x Timing => Delayed applies to x; Priorities => 3 applies to x; end x;"),
        SMALL_TABLE,
    );
    refused_at_mark(20, &with("process x ^Priority => 3 applies to x; end x;"));
    refused_at_mark(20, &with("system x Thread_Properties::^Priority +=> high, 5.5 applies to x; end x;"));
    refused_at_mark(20, &with("system x y::^Priority => 300 applies to x; end x;"));
    taken(&with("process x Priority => 3; applies to x; end x;"), SMALL_TABLE);
    taken(&with("process x Priority => 256; Thread_Properties::Priority => 5.5 end x;"), SMALL_TABLE);
    taken(&with("process x Priority = > 3 applies to x; end x;"), SMALL_TABLE);
    taken(&with("device x Priority => 3 applies to x; end x;"), SMALL_TABLE);
    taken(&with("device x Period => 5 ms applies to x; end x;"), SMALL_TABLE);
    taken(&with("thread group x Period => 5 ms applies to x; end x;"), SMALL_TABLE);
    // A blank or a comment between the tokens changes nothing.
    refused_at_mark(20, &with("process x ^Period -- =>\n => 5 ms applies to x; end x;"));
    // Noted, so it counts where the text ends too early.
    refused_at_mark(20, "system x ^Period => 5 ms applies to x");
    refused_at_mark(20, "system x Period => 5 ms^");
}

#[test]
fn properties_of_the_process() {
    small_refused(20, "connections", "properties ^Period => 5 ms; connections");
    small_refused(
        20,
        "connections",
        "properties ^Timing_Properties::Deadline +=> x, (y) applies to a; connections",
    );
    small_refused(20, "connections", "properties ^Dispatch_Offset ; connections");
    small_refused(20, "connections", "properties ^Dispatch_Protocol");
    small_refused(20, "connections", "properties Period::^; connections");
    small_refused(20, "connections", "properties Period::x => ^; connections");
    small_refused(20, "connections", "properties ^Priority => 3; connections");
    small_refused(
        20,
        "connections",
        "properties ^Thread_Properties::Priority +=> x, (y) applies to a; connections",
    );
    small_refused(20, "connections", "properties ^Priority => 256; connections");
    small_refused(20, "connections", "properties ^Priority");
    small_taken(
        "connections",
        "properties Timing => 5; Priority::x => x; Timing_Properties::Priority => 5.5; connections",
    );
    small_taken("connections", "properties none; connections");
}

#[test]
fn times() {
    small_taken("6 ms", "6ms");
    small_taken("6 ms", "0.006 SEC");
    small_taken("6 ms", "0_6_.0_0_ Ms");
    small_taken("6 ms", "0.0060000000000000000000000000000000000000000 sec");
    taken(&small("6 ms", "0.5 sec"), "010004000400\n0101f4000500\n02010001\n03\n");
    taken(&small("4 ms", "60 sec").replace("6 ms", "60.0 sec"), "01ea60ea6000\n01ea60000500\n02010001\n03\n");
    small_refused(22, "6 ms", "^6");
    small_refused(22, "6 ms", "^6.5 ms");
    small_refused(22, "6 ms", "^0.0005 sec");
    small_refused(22, "6 ms", "6 ^us");
    // The NUMBER is not judged.
    small_refused(22, "6 ms", "6.5 ^us");
    small_refused(22, "6 ms", "^6 in modes (m)");
    small_refused(22, "6 ms", "^6 .. 7 ms");
    small_refused(22, "6 ms", "^6.");
    small_refused(22, "6 ms", "6 ^e3 ms");
    small_refused(22, "6 ms", "6 ^ms_");
    small_refused(20, "6 ms", "6 ms^, 7 ms");
    small_refused(20, "6 ms", "6 ms ^in modes (m)");
    small_refused(20, "6 ms", "6 ms ^applies to x");
    small_refused(20, "6 ms", "^-6 ms");
    small_refused(20, "6 ms", "^ms");
    small_refused(20, "6 ms", "^(6 ms)");
    small_refused(20, "Period => 6", "Period ^+=> 6");
    // A time with 22 is there: not 20 at the thread's NAME, which is before it.
    small_refused(22, "Period => 4 ms", "Period => ^4");
    small_refused(22, "Deadline => 5 ms", "Deadline => 5 ^min");
    // Noted before an end of the reading.
    small_refused(22, "6 ms; Deadline => 5 ms;};", "6 ^us; Deadline => 5 ms;}");
    refused_at_mark(22, "thread t properties Period => ^5");
}

#[test]
fn numbers_have_no_upper_bound() {
    taken(&small("6 ms", &format!("1{} ms", "0".repeat(30))), "7f0201\n");
    taken(&small("6 ms", "0 ms"), "7f0201\n");
    taken(&small("5 ms", "7 ms"), "7f0201\n");
    taken(&small("4 ms", "0.000 sec"), "7f0200\n");
    taken(&small("4 ms", "18446744073709551620 ms"), "7f0200\n");
    small_taken("6 ms", &format!("{}6 ms", "0".repeat(300)));
}

#[test]
fn a_second_property_in_one_block() {
    small_refused(20, "6 ms;", "6 ms; ^Period => 7 ms;");
    small_refused(20, "6 ms;", "6 ms; ^Timing_Properties::Period => 6 ms;");
    small_refused(20, "6 ms;", "6 ms; ^Period");
    small_refused(20, "6 ms;", "6 ms; ^Period => x;");
    small_refused(20, "Delayed;", "Delayed; ^Communication_Properties::Timing => Delayed;");
    small_refused(22, "6 ms;", "6 ^us; Period => 7 ms;");
    small_refused(20, "end s;", "properties Dispatch_Offset => 5; ^Dispatch_Offset => 6; end s;");
    // It does not count.
    small_refused(20, "4 ms;}", "4 ms; Dispatch_Protocol => Periodic; ^Dispatch_Protocol => Sporadic;}");
    small_refused(20, "b.i;", "b.i {Timing => Delayed; ^Timing => Immediate;};");
    small_taken("end s;", "properties Deadline => 4 ms; properties Deadline => 9 ms; end s;");
    small_taken(
        "end s;",
        "properties Deadline => 4 ms; properties none; properties Deadline => 0 ms; end s;",
    );
}

#[test]
fn where_properties_are_read() {
    // In the type, in the implementation, in a type that is extended.
    small_taken("4 ms;};", "4 ms; Deadline => 4 ms;};");
    small_taken("end s;", "properties Deadline => 4 ms; end s;");
    taken(
        &small("end s;", "properties Deadline => 3 ms; end s;"),
        "010004000300\n010006000500\n02010001\n03\n",
    );
    taken(
        &(small("thread s {Period => 4 ms;}", "thread s.j")
            + "thread implementation s.j properties Period => 4 ms; end s.j;"),
        SMALL_TABLE,
    );
    taken(
        &(small("thread s features", "thread s extends x::y features")
            + "thread y properties Period => 9 ms; Deadline => 2 ms; end y;"),
        "010004000200\n010006000500\n02010001\n03\n",
    );
    // The block counts before the implementation, this before the type.
    taken(
        &(small("a: thread s {Period => 4 ms;}", "a: thread s.j")
            .replace("end s;", "properties Period => 9 ms; Deadline => 3 ms; end s;")
            + "thread implementation S.J properties Period => 4 ms; end s.j;"),
        "010004000300\n010006000500\n02010001\n03\n",
    );
    // Elsewhere they are skipped by `value`.
    small_taken("i: in data port;", "i: in data port {Period => 5 us, x;};");
    small_taken("4 ms;}", "4 ms; Timing => 5, 6;}");
    small_taken("end s;", "properties Timing => Immediate applies to o; end s;");
    small_taken("connections", "d: data {Period => 5 us;}; connections");
    small_taken("4 ms;}", "4 ms; x::Period => 5 us; Timing_Properties::Dispatch_Protocol => 5;}");
    small_taken(
        "4 ms;}",
        "4 ms; x::Priority => high; Timing_Properties::Priority => 256; Priorities => 5.0;}",
    );
    small_taken("i: in data port;", "i: in data port {Priority => high;};");
    small_taken("b.i;", "b.i {Priority => 256, 5.0;};");
    small_taken("connections", "d: data {Priority => 256;}; connections");
    taken(&format!("package p properties Priority => high; end p; {SMALL}"), SMALL_TABLE);
    small_taken("end s;", "subcomponents d: data {Period => 5 us;}; end s;");
}

#[test]
fn dispatch_protocol_and_offset() {
    small_taken("4 ms;}", "4 ms; Dispatch_Protocol => PERIODIC;}");
    small_refused(
        20,
        "a: thread s {Period => 4 ms;}",
        "^a: thread s {Period => 4 ms; Dispatch_Protocol => Sporadic;}",
    );
    small_refused(
        20,
        "a: thread s {Period => 4 ms;}",
        "^a: thread s {Period => 4 ms; Dispatch_Offset => 0 ms;}",
    );
    small_refused(20, "4 ms;}", "4 ms; Dispatch_Offset => 0 ms^, 1 ms;}");
    small_refused(20, "4 ms;}", "4 ms; Dispatch_Protocol => Periodic ^in modes (m);}");
    small_refused(20, "a: thread s {Period => 4 ms;}", "^a: thread s");
}

/// SMALL's table with the priorities of its two tasks.
fn with_priorities(of_a: u8, of_b: u8) -> String {
    format!("0100040004{of_a:02x}\n0100060005{of_b:02x}\n02010001\n03\n")
}

#[test]
fn priorities() {
    let priority_of_a = |number: &str, priority: u8| {
        let block = format!("4 ms; Priority => {number};}}");
        taken(&small("4 ms;}", &block), &with_priorities(priority, 0));
    };
    priority_of_a("0", 0);
    priority_of_a("1", 1);
    priority_of_a("127", 127);
    priority_of_a("128", 128);
    priority_of_a("255", 255);
    priority_of_a("2_5_5_", 255);
    priority_of_a("0_0__7", 7);
    priority_of_a(&format!("{}255", "0".repeat(300)), 255);
    // No Priority: 0, in one line as in the other.
    taken(SMALL, &with_priorities(0, 0));
    // Its name, and letter case.
    taken(&small("4 ms;}", "4 ms; PRIORITY=>3;}"), &with_priorities(3, 0));
    taken(
        &small("Period => 4 ms;}", "Thread_Properties::Priority => 3; Period => 4 ms;}"),
        &with_priorities(3, 0),
    );
    taken(&small("5 ms;}", "5 ms; thread_properties :: priority => 200;}"), &with_priorities(0, 200));
}

#[test]
fn where_a_priority_is_read() {
    let implementation = "thread implementation s.j properties Priority => 7; end s.j;";
    let in_type = |priority: &str| format!("properties Priority => {priority}; end s;");
    // From the type, for both; the block counts before it.
    taken(&small("end s;", &in_type("9")), &with_priorities(9, 9));
    taken(&small("end s;", &in_type("9")).replace("4 ms;}", "4 ms; Priority => 0;}"), &with_priorities(0, 9));
    // From the implementation, before the type.
    taken(&(small("a: thread s", "a: thread s.j") + implementation), &with_priorities(7, 0));
    taken(
        &(small("a: thread s", "a: thread s.j").replace("end s;", &in_type("9")) + implementation),
        &with_priorities(7, 9),
    );
    // From the block, before the implementation.
    taken(
        &(small("a: thread s {", "a: thread s.j {Priority => 1;") + implementation),
        &with_priorities(1, 0),
    );
    // From a type that is extended, before the types that this one extends.
    let extended = small("thread s features", "thread s extends x::y features");
    let y = "thread y extends z properties Priority => 5; end y;";
    let z = "thread z properties Priority => 6; end z;";
    taken(&(extended.clone() + y + z), &with_priorities(5, 5));
    taken(&(extended.clone() + "thread y extends z end y;" + z), &with_priorities(6, 6));
    taken(&(extended + z), &with_priorities(0, 0));
    // The first section that has it.
    taken(
        &small("end s;", "properties x => 1; properties Priority => 2; properties Priority => 3; end s;"),
        &with_priorities(2, 2),
    );
    let timed = small(
        "b: thread s {Period => 6 ms; Deadline => 5 ms;}",
        "b: thread w1 {Period => 6 ms; Deadline => 5 ms;}",
    );
    let priority = "extends outside properties Priority => 4;";
    taken(&(timed.clone() + &way(8, priority)), &with_priorities(0, 4));
    taken(&(timed + &way(9, priority)), &with_priorities(0, 0));
}

#[test]
fn priorities_that_are_refused() {
    let in_block = |number: u8, marked: &str| {
        small_refused(number, "4 ms;}", &format!("4 ms; {marked}"));
    };
    // Over 255: at its NUMBER, and the reading goes on.
    in_block(20, "Priority => ^256;}");
    in_block(20, "Thread_Properties::Priority => ^2_56_;}");
    in_block(20, &format!("Priority => ^1{};}}", "0".repeat(30)));
    in_block(20, "Priority => ^18446744073709551616;}");
    in_block(20, "Priority => ^256");
    in_block(20, "Priority => ^256 ms;}");
    in_block(20, "Priority => ^256;} x");
    refused_at_mark(22, &small("4 ms", "4 ^us").replace("5 ms;}", "5 ms; Priority => 256;}"));
    refused_at_mark(20, &small("4 ms;}", "4 ms; Priority => ^256;}").replace("6 ms", "6 us"));
    // Judged 20 at the thread's NAME before it.
    small_refused(20, "a: thread s {Period => 4 ms;}", "^a: thread s {Priority => 256;}");
    // Not the form: it ends the reading.
    in_block(20, "Priority => ^5.0;}");
    in_block(20, "Priority => ^0.0;}");
    in_block(20, "Priority => ^256.0;}");
    in_block(20, "Priority => 5^.;}");
    in_block(20, "Priority => ^-5;}");
    in_block(20, "Priority => ^+5;}");
    in_block(20, "Priority => ^high;}");
    in_block(20, "Priority => ^true;}");
    in_block(20, "Priority => ^\"5\";}");
    in_block(20, "Priority => ^(5);}");
    in_block(20, "Priority => ^(((((((((5)))))))));}");
    in_block(20, "Priority => ^;}");
    in_block(20, "Priority ^+=> 5;}");
    in_block(20, "Priority => 5 ^ms;}");
    in_block(20, "Priority => 5^, 6;}");
    in_block(20, "Priority => 5 ^.. 6;}");
    in_block(20, "Priority => 16^#ff#;}");
    in_block(20, "Priority => 1^e2;}");
    in_block(20, "Priority => 5 ^in modes (m);}");
    in_block(20, "Priority => 5 ^applies to x;}");
    in_block(20, "Priority => 5^}");
    // What ends the reading hides the judgement.
    refused_at_mark(
        20,
        &(small("a: thread s {Period => 4 ms;}", "a: thread s")
            + "thread u properties Priority => ^5.0; end u;"),
    );
    // Types and implementations that no thread has are read, too.
    refused_at_mark(20, &(SMALL.to_string() + "thread u properties Priority => ^256; end u;"));
    refused_at_mark(
        20,
        &(SMALL.to_string() + "thread implementation u.i properties Priority => ^high; end u.i;"),
    );
    // A second one in the same block or section, at its first NAME; it does not count.
    in_block(20, "Priority => 5; ^Priority => 5;}");
    in_block(20, "Priority => 5; ^Thread_Properties::Priority => 6;}");
    in_block(20, "Priority => 5; ^Priority => 256;}");
    in_block(20, "Priority => 5; ^Priority => high;}");
    in_block(20, "Priority => 5; ^Priority");
    in_block(20, "Priority => ^256; Priority => 5;}");
    small_refused(20, "end s;", "properties Priority => 5; x => 1; ^Priority => 5; end s;");
    // Noted where the text is too long, as all that is noted.
    let long = small("4 ms;}", "4 ms; Priority => 256;}") + &" ".repeat(MOST_BYTES);
    taken(&long, &refused(20, long.find("256").unwrap()));
}

#[test]
fn skipped_values() {
    let value = |value: &str| format!("4 ms; x => {value};}}");
    let value_taken = |text: &str| small_taken("4 ms;}", &value(text));
    let value_refused = |number: u8, marked: &str| small_refused(number, "4 ms;}", &value(marked));
    value_taken("((((((((x))))))))");
    value_taken("[a => [b => ([c => ([d => ((x));]);]);];], ((((((((), ())))))))");
    value_refused(23, "((((((((^(x)))))))))");
    value_refused(23, "((((((((^[]))))))))");
    value_refused(23, "(1) [] [a => (((((((^(");
    value_refused(23, "x, ((((((((x)))))))), ((((((((^(");
    value_taken("() [] (a, (), [b => c d;]) in modes (m) applies to x");
    value_taken("\"a;}\" {** ; **} - 5 .. 6 none features");
    // A quote that begins no string is an atom.
    value_taken("\"a\n");
    value_refused(20, "^");
    value_refused(20, "(a, ^)");
    value_refused(20, "[a => b^, c;]");
    value_refused(20, "a ^{b}");
    value_refused(20, "a ^=> b");
    value_refused(20, "a ^end");
    // The bytes of an annex that nothing closes: a block cannot stand there.
    value_refused(20, "a ^{** b");
    // Brackets that are not in a value have no depth.
    taken(&format!("data d (((((((((((( end d; {SMALL}"), SMALL_TABLE);
    small_taken("i: in data port;", "i: in data port; f: feature [[[[[[[[[[[[;");
    // The value of a property that is read has one, too.
    small_refused(23, "end s;", "properties Dispatch_Offset => ((((((((^(x))))))))); end s;");
}

#[test]
fn features() {
    small_refused(20, "i: in data port;", "i: ^refined to in data port;");
    small_refused(20, "i: in data port;", "i: in data port ^[3];");
    small_refused(20, "i: in data port;", "i: in ^parameter D;");
    small_taken("i: in data port;", "i: in data port a::b.c {x => 5;};");
    small_taken(
        "i: in data port;",
        "i: in data port; features none; features f: requires data access D in modes (m);",
    );
    small_refused(20, "i: in data port;", "i: in data port; f: requires {} ^in modes (m);");
    // An input port, also in out; an output port is no input port.
    small_taken("i: in data port;", "i: in out event data port;");
    refused_at_mark(20, &small("i: in data port;", "i: out event port;").replace("b.i", "b.^i"));
    refused_at_mark(20, &SMALL.replace("a.o", "a.^i"));
    // An other_feature is no port.
    refused_at_mark(21, &small("i: in data port;", "i: requires data access;").replace("b.i", "b.^i"));
}

#[test]
fn sections() {
    refused_at_mark(20, "thread implementation s.i calls x ^features none; end s.i;");
    small_refused(20, "connections", "^modes m: initial mode; connections");
    small_refused(20, "connections", "flows f: flow path in ^modes (m); connections");
    small_taken(
        "end s;",
        "flows f: flow path in modes (m) annex x y none ( properties Timing => 5, 6; end s;",
    );
    small_refused(20, "connections", "flows f: end ^to end flow a; connections");
    small_refused(20, "subcomponents\na", "subcomponents none; ^a");
    small_taken("subcomponents", "subcomponents none; connections none; properties none; subcomponents");
    small_refused(20, "connections", "connections none ^c;");
    refused_at_mark(20, "thread s calls x^");
    refused_at_mark(20, "thread implementation s.i ^extends a.b end s.i;");
}

#[test]
fn subcomponents() {
    small_refused(20, "a: thread s", "a: thread s ^[3] {}; b: thread s");
    small_refused(20, "a: thread s", "a: thread s ^in modes (m); b: thread s");
    small_refused(20, "a: thread s", "a: thread^; b: thread s");
    small_refused(20, "a: thread s", "a: thread x::s.^; b: thread s");
    small_refused(20, "a: thread s", "x: ^process s; a: thread s");
    small_taken(
        "a: thread s",
        "a: data; b: abstract x [3] in modes (m) {Period => 5 us;}; a: thread x::y::s",
    );
    small_refused(20, "a: thread s", "x: data {} ^in modes (m); a: thread s");
}

#[test]
fn connections_that_are_read() {
    small_taken("c: port", "c: event data port");
    small_taken("c: port", "data port");
    small_refused(20, "c: port", "c: data ^a");
    small_refused(20, "a.o -> b.i", "a.o ^<-> b.i");
    small_refused(20, "a.o -> b.i", "a.o^.x -> b.i");
    small_refused(20, "a.o -> b.i", "a.o -> b.i ^in modes (m)");
    small_refused(20, "a.o -> b.i", "^self.o -> b.i");
    // Timing: from its block; else by the arrow; else from the port.
    small_taken("a.o -> b.i", "a.x ->> b.i");
    small_taken("a.o -> b.i", "a.x -> b.i {Timing => delayed;}");
    small_refused(20, "a.o -> b.i", "a.^x -> b.i");
    small_refused(20, "a.o -> b.i", "a.^o ->> b.i {Timing => Immediate;}");
    small_refused(20, "a.o -> b.i", "a.^o -> b.i {Communication_Properties::Timing => Sampled;}");
    small_refused(20, "a.o -> b.i", "a.^i ->> b.i");
    small_refused(20, "a.o -> b.i", "a.o -> b.^o");
    // A Timing that is read by its form, also where the connection is passed over.
    small_refused(20, "c: port", "port a -> b {Timing => ^5;}; c: port");
    small_refused(20, "c: port", "port a -> b {Timing => x; ^Timing => x;}; c: port");
    small_taken("c: port", "data access a -> b {Timing => 5;}; c: port");
}

#[test]
fn connections_that_are_passed_over() {
    small_taken("c: port", "c: port a -> b; c: port nobody.x -> y; c: bus access x <-> y; c: port");
    small_taken("c: port", "parameter a -> b; feature group a <-> b; virtual; subprogram x; c: port");
    // Without any between threads the count of queues is 0.
    taken(&small("a.o -> b.i", "a.o -> b"), "7f0100\n");
    taken("process implementation p.i end p.i;", "7f0100\n");
    // A passed-over subcomponent is no thread.
    small_refused(21, "connections\nc: port a.o", "d: data; connections\nc: port ^d.o");
}

#[test]
fn unknown_threads_and_types() {
    small_refused(21, "a.o -> b.i", "^x.o -> b.i");
    small_refused(21, "a.o -> b.i", "a.o -> ^x.i");
    small_refused(21, "a.o -> b.i", "^x.nowhere -> y.i");
    small_refused(21, "a.o -> b.i", "a.nowhere -> ^y.nowhere");
    small_refused(21, "a: thread s", "a: thread x::^y");
    small_refused(21, "b: thread s", "b: thread ^y.j");
    // Of an unknown type nothing is known: no Period is before it.
    small_refused(20, "a: thread s {Period => 4 ms;}", "^a: thread y");
    // An implementation alone is enough, or a type alone.
    taken(&(small("b: thread s", "b: thread y.j") + "thread implementation y.j end y.j;"), SMALL_TABLE);
    small_taken("b: thread s", "b: thread s.j");
    refused_at_mark(21, &(small("b: thread s", "b: thread ^y.k") + "thread implementation y.j end y.j;"));
    refused_at_mark(21, &(small("b: thread s", "b: thread ^y") + "thread implementation y.j end y.j;"));
}

#[test]
fn ports_that_are_missing() {
    small_refused(21, "a.o -> b.i", "a.^nowhere ->> b.i");
    small_refused(21, "a.o -> b.i", "a.o -> b.^nowhere");
    // The input port may stand outside, the output port may not.
    taken(
        &small("a.o -> b.i", "a.o -> b.nowhere").replace("thread s features", "thread s extends x features"),
        SMALL_TABLE,
    );
    refused_at_mark(
        21,
        &small("a.o -> b.i", "a.^q -> b.i").replace("thread s features", "thread s extends x features"),
    );
    taken(&(small("b: thread s", "b: thread y.j") + "thread implementation y.j end y.j;"), SMALL_TABLE);
    refused_at_mark(
        21,
        &(small("a: thread s", "a: thread y.j").replace("a.o", "a.^o")
            + "thread implementation y.j end y.j;"),
    );
    // Types that extend each other have no end.
    let circle = "thread y extends z end y; thread z extends y end z;";
    taken(&(small("b: thread s", "b: thread y") + circle), SMALL_TABLE);
    refused_at_mark(21, &(small("a: thread s", "a: thread y").replace("a.o", "a.^o") + circle));
}

/// Types w1 to w`length`, each extends the next; the last has the rest.
fn way(length: usize, rest: &str) -> String {
    let first: String = (1..length).map(|k| format!("thread w{k} extends w{} end w{k}; ", k + 1)).collect();
    format!("{first} thread w{length} {rest} end w{length};")
}

#[test]
fn eight_types_at_most() {
    let sender = small("a: thread s", "a: thread w1");
    let port = "features o: out data port {Timing => Delayed;};";
    taken(&(sender.clone() + &way(8, port)), SMALL_TABLE);
    refused_at_mark(21, &(sender.replace("a.o", "a.^o") + &way(9, port)));
    let receiver = small("b: thread s", "b: thread w1");
    refused_at_mark(21, &(receiver.replace("b.i", "b.^i") + &way(8, "")));
    taken(&(receiver.clone() + &way(9, "")), SMALL_TABLE);
    taken(&(receiver.clone() + &way(8, "extends outside")), SMALL_TABLE);
    refused_at_mark(20, &(receiver.replace("b.i", "b.^i") + &way(8, "features i: out data port;")));
    taken(&(receiver + &way(9, "features i: out data port;")), SMALL_TABLE);
    let timed = small("b: thread s {Period => 6 ms; Deadline => 5 ms;}", "b: thread w1");
    let times = "extends outside properties Period => 6 ms; Deadline => 5 ms;";
    taken(&(timed.clone() + &way(8, times)), SMALL_TABLE);
    refused_at_mark(20, &(timed.replace("b: thread w1", "^b: thread w1") + &way(9, times)));
}

#[test]
fn declared_before() {
    refused_at_mark(20, &(SMALL.to_string() + "thread ^S end s;"));
    let implementations = "thread implementation a.i end a.i; thread implementation a.j end a.j;";
    refused_at_mark(20, &format!("{implementations} thread implementation ^A.I end a.i;"));
    small_refused(20, "x: in out", "^I: in out");
    small_refused(20, "b: thread s", "^A: thread s");
    small_refused(20, "c: port a.o -> b.i;", "c: port a.o -> b.i; ^C: port b.o -> a.i;");
    // Other features, passed-over subcomponents and connections do not count.
    small_taken("x: in out", "i: requires data access; o: feature; x: in out");
    small_taken("c: port a.o -> b.i;", "c: port a -> b; c: port a.o -> b.i; c: parameter c -> c;");
    // The name of a connection with an unknown thread counts.
    small_refused(21, "c: port a.o -> b.i;", "c: port ^x.o -> b.i; c: port b.o -> a.i;");
    refused_at_mark(20, &small("c: port a.o -> b.i;", "c: port a.o -> b.i; ^c: port x.o -> b.i;"));
    // The first counts: the second type has no Timing.
    refused_at_mark(20, &(SMALL.to_string() + "thread ^s features o: out data port; end s;"));
    // At the least place: the second process, though its thread is bad as well.
    refused_at_mark(
        20,
        &(SMALL.to_string() + "^process implementation p.i subcomponents a: thread n; end p.i;"),
    );
    // Types that no thread has are judged, too.
    refused_at_mark(20, &(SMALL.to_string() + "thread u features p: in data port; ^p: in data port; end u;"));
}

#[test]
fn connections_alike() {
    let again =
        |marked: &str| small_refused(24, "c: port a.o -> b.i;", &format!("c: port a.o -> b.i; {marked}"));
    again("^d: port a.o -> b.i;");
    again("^port A.x ->> B.I;");
    again("^event data port a.nowhere -> b.i;");
    // At one place the lower number.
    small_refused(20, "c: port a.o -> b.i;", "c: port a.o -> b.i; ^c: port a.o -> b.i;");
    // Another sender or another receiving port is another connection.
    taken(
        &small("c: port a.o -> b.i;", "port a.o -> b.i; port b.o -> b.i; port a.o -> b.x; port a.o -> a.i;"),
        "010004000400\n010006000500\n02010003\n02010001\n02000001\n03\n",
    );
}

#[test]
fn the_least_place_decides() {
    // A 20 of the judgement before a 22 of the reading, and the other way round.
    refused_at_mark(20, &small("6 ms", "6 us").replace("a: thread s {Period => 4 ms;}", "^a: thread s"));
    refused_at_mark(22, &small("4 ms", "4 ^us").replace("b: thread s {Period => 6 ms;", "b: thread s {"));
    // What ends the reading hides the judgement.
    refused_at_mark(20, &(small("a: thread s {Period => 4 ms;}", "a: thread s") + "^x"));
    refused_at_mark(23, &(small("a.o", "x.o") + "thread u properties x => ((((((((^("));
}

#[test]
fn too_many_rows() {
    let threads: String = (0..15).map(|k| format!("t{k}: thread s {{Period => 4 ms;}};")).collect();
    taken(&small("connections", &format!("{threads} connections")), "7f0100\n");
    let ports: String = (0..9).map(|k| format!("p{k}: in data port;")).collect();
    let connections: String = (0..9).map(|k| format!("port a.o -> b.p{k};")).collect();
    let text = small("i: in data port;", &format!("i: in data port; {ports}"))
        .replace("c: port a.o -> b.i;", &connections);
    taken(&text, "7f0100\n");
    refused_at_mark(21, &text.replace("a.o -> b.p8", "a.o -> b.^p9"));
}

#[test]
fn at_most_262_144_bytes() {
    let filled = |text: &str, length: usize| text.to_string() + &" ".repeat(length - text.len());
    taken(&filled(SMALL, MOST_BYTES), SMALL_TABLE);
    taken(&filled(SMALL, MOST_BYTES + 1), "7f1400040000\n");
    // Noted faults count, those of the judgement do not.
    let place = SMALL.find("6 ms").unwrap() + 2;
    taken(&filled(&small("6 ms", "6 us"), MOST_BYTES + 1), &refused(22, place));
    taken(&filled(&small("a.o", "x.o"), MOST_BYTES + 1), "7f1400040000\n");
    taken(&filled(&small("a.o", "x.o"), MOST_BYTES), &refused(21, SMALL.find("a.o").unwrap()));
    // The first bytes are read as if they were all: here the annex is not closed.
    let annex = filled(&(SMALL.to_string() + "annex x {**"), MOST_BYTES) + "**};";
    taken(&annex, &refused(20, SMALL.len() + 8));
}

/// Each pattern of a fault comes at least once in the texts that are compared where no other number
/// is asked for.
#[test]
fn every_pattern_is_compared() {
    assert!(reading_faults() <= TEXTS / TURN * READING_FAULTS);
}
