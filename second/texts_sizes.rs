// Texts at and over each limit of AADL.md, and texts that ask for much work; each with the answer
// that is due.

use crate::aadl::{planned, refused, MOST_BYTES};
use crate::model::{Queue, Table, Task};
use crate::random::Random;
use crate::texts_noise::nested;

pub struct Sized {
    pub text: Vec<u8>,
    /// The answer, where it is known.
    pub answer: Option<String>,
}

pub const SIZES: u64 = 21;

pub fn of_size(kind: u64, random: &mut Random) -> Sized {
    match kind {
        0 => threads(random.pick(&[15, 16, 16, 17, 17, 18, 255, 256, 257]), random),
        1 => threads(random.pick(&[3_000, 6_000]), random),
        2 => queues(random.pick(&[7, 8, 8, 9, 9, 255, 256, 257])),
        3 => queues(3_000),
        4 => alike_late(3_000, random),
        5 => passed_over(3_000, random),
        6 => depth(random),
        7 => property_on_the_way(random),
        8 => output_port_on_the_way(random),
        9 => input_port_on_the_way(random),
        10 => way_in_a_circle(random),
        11..=14 => full_length(random),
        15 => number(random),
        16 => many_types(random),
        17 => many_ports(random),
        18 => nothing_closed(random),
        19 => priority(random),
        _ => reaching_from_outside(random),
    }
}

/// The threads are all of type `s`, which has the output port `o` and the input port `i`.
const TYPE: &str = "thread s features o: out data port {Timing => Delayed;}; i: in data port; end s;\n";

fn process(subcomponents: &str, connections: &str) -> String {
    format!("process implementation p.i\nsubcomponents\n{subcomponents}connections\n{connections}end p.i;\n")
}

/// Two threads and one connection; its answer is `small_answer`.
fn small() -> String {
    let threads = "a: thread s {Period => 4 ms;};\nb: thread s {Period => 6 ms; Deadline => 5 ms;};\n";
    process(threads, "port a.o -> b.i;\n")
}

fn small_answer() -> String {
    small_answer_with(0)
}

/// The second thread has this priority.
fn small_answer_with(priority: u64) -> String {
    let tasks = vec![task(4, 4), Task { priority, ..task(6, 5) }];
    planned(&Table { tasks, queues: vec![Queue { receiver: 1, senders: vec![0] }] })
}

fn task(period: u64, deadline: u64) -> Task {
    Task { period, deadline, priority: 0 }
}

fn sized(text: String, answer: String) -> Sized {
    Sized { text: text.into_bytes(), answer: Some(answer) }
}

fn threads(count: u64, random: &mut Random) -> Sized {
    let list: String =
        (0..count).map(|index| format!("t{index}: thread s {{Period => 10 ms;}};\n")).collect();
    let last = count as usize - 1;
    let tasks = vec![task(10, 10); count as usize];
    let table = Table { tasks, queues: vec![Queue { receiver: last, senders: vec![0] }] };
    let text = TYPE.to_string() + &process(&list, &format!("port t0.o -> t{last}.i;\n"));
    if random.once_in(4) {
        // A fault comes before the count.
        let text = text.replace("t0.o", "t0.q");
        let place = text.find("t0.q").unwrap_or(0) + 3;
        return sized(text, refused(21, place));
    }
    sized(text, planned(&table))
}

/// A receiver with so many ports, each with its own queue.
fn queues(count: u64) -> Sized {
    let ports: String = (0..count).map(|index| format!("i{index}: in event port;\n")).collect();
    let receiver = format!("thread r features\n{ports}end r;\n");
    let list = "a: thread s {Period => 4 ms;};\nb: thread r {Period => 8 ms;};\n";
    let connections: String = (0..count).map(|index| format!("port a.o -> b.i{index};\n")).collect();
    let tasks = vec![task(4, 4), task(8, 8)];
    let queues = vec![Queue { receiver: 1, senders: vec![0] }; count as usize];
    sized(TYPE.to_string() + &receiver + &process(list, &connections), planned(&Table { tasks, queues }))
}

/// So many connections, the last of them like an earlier one.
fn alike_late(count: u64, random: &mut Random) -> Sized {
    let list = "a: thread s {Period => 4 ms;};\nb: thread q {Period => 8 ms;};\n";
    let q = "thread q extends outside end q;\n";
    let connections: String = (1..count).map(|index| format!("port a.o -> b.i{index};\n")).collect();
    let last = format!("c: port a.O ->> b.I{};\n", random.between(1, count - 1));
    let text = TYPE.to_string() + q + &process(list, &(connections + &last));
    let place = text.len() - "end p.i;\n".len() - last.len();
    sized(text, refused(24, place))
}

fn passed_over(count: u64, random: &mut Random) -> Sized {
    let kind =
        random.pick(&["c: port x -> a.i;\n", "c: port a.o -> x {Timing => No;};\n", "bus x.y.z <-> ..;\n"]);
    let list = kind.repeat(count as usize);
    let text = TYPE.to_string() + &small().replace("connections\n", &format!("connections\n{list}"));
    sized(text, small_answer())
}

/// Brackets to depth 8 or more, in one of the places where a value is skipped.
fn depth(random: &mut Random) -> Sized {
    let depth = random.pick(&[7, 8, 8, 9, 9, 10, 200]);
    let words: Vec<Vec<u8>> = nested(depth, random).into_iter().map(|piece| piece.bytes).collect();
    let value = String::from_utf8_lossy(&words.join(&b' ')).to_string();
    let places = [
        ("end s;", format!("properties x => {value}; end s;")),
        ("Delayed;}", format!("Delayed; x => 1, {value};}}")),
        ("4 ms;}", format!("4 ms; x +=> {value} {value};}}")),
        ("i: in data port;", format!("i: in data port; f: feature {{x => {value};}};")),
        ("connections\n", format!("connections\nport a -> b {{x => {value};}};\n")),
        ("connections\n", format!("properties x => {value};\nconnections\n")),
    ];
    let (from, to) = &places[random.below(places.len() as u64) as usize];
    let text = (TYPE.to_string() + &small()).replacen(from, to, 1);
    let mut open = 0;
    for (place, byte) in text.bytes().enumerate() {
        match byte {
            b'(' | b'[' => open += 1,
            b')' | b']' => open -= 1,
            _ => {}
        }
        if open == 9 {
            return sized(text, refused(23, place));
        }
    }
    sized(text, small_answer())
}

/// `length` types behind one another, from `w1` on; the last has `last` in it and may extend.
fn way(length: u64, last: &str, extends: &str) -> String {
    let mut types: Vec<String> =
        (1..length).map(|k| format!("thread w{k} extends w{} end w{k};\n", k + 1)).collect();
    types.push(format!("thread w{length} {extends} {last} end w{length};\n"));
    // The order of the types does not matter.
    types.reverse();
    types.concat()
}

/// The eighth type is looked at, the ninth is not.
fn property_on_the_way(random: &mut Random) -> Sized {
    let length = random.pick(&[2, 7, 8, 8, 9, 9, 10, 40]);
    let property = random.pick(&[
        "Period => 6 ms;",
        "Dispatch_Protocol => Sporadic;",
        "Dispatch_Offset => 5;",
        "Priority => 9;",
    ]);
    // It leads out of the text, so that the input port may stand there.
    let types = way(length, &format!("properties {property}"), "extends outside");
    let is_found = length <= 8;
    let is_period = property.starts_with("Period");
    let block = if is_period { "Deadline => 5 ms;" } else { "Period => 6 ms; Deadline => 5 ms;" };
    let list = format!("a: thread s {{Period => 4 ms;}};\nb: thread w1.none_ {{{block}}};\n");
    let text = TYPE.to_string() + &types + &process(&list, "port a.o -> b.i;\n");
    let place = text.find("b: thread").unwrap_or(0);
    let answer = match is_found == is_period {
        _ if property.starts_with("Priority") => small_answer_with(if is_found { 9 } else { 0 }),
        true => small_answer(),
        false => refused(20, place),
    };
    sized(text, answer)
}

fn output_port_on_the_way(random: &mut Random) -> Sized {
    let length = random.pick(&[2, 7, 8, 8, 9, 9, 10]);
    let types = way(length, "features o: out event data port {Timing => Delayed;};", "");
    let text = TYPE.to_string() + &types + &small().replace("a: thread s", "a: thread w1");
    let place = text.find("a.o").unwrap_or(0) + 2;
    sized(text, if length <= 8 { small_answer() } else { refused(21, place) })
}

/// Found as the eighth; not found though the way ends with the eighth; or the way is longer, or
/// leads out of the text, and the port may stand there.
fn input_port_on_the_way(random: &mut Random) -> Sized {
    let length = random.pick(&[1, 2, 7, 8, 8, 9, 9, 10]);
    let (port, extends) = random.pick(&[
        ("features i: in data port;", ""),
        ("features i: out data port;", ""),
        ("features j: in data port;", ""),
        ("features j: in data port;", "extends outside"),
        ("features i: requires data access;", ""),
    ]);
    let types = way(length, port, extends);
    let text = TYPE.to_string() + &types + &small().replace("b: thread s", "b: thread w1");
    let place = text.find("b.i").unwrap_or(0) + 2;
    let answer = match port {
        _ if length > 8 || !extends.is_empty() => small_answer(),
        "features i: in data port;" => small_answer(),
        "features i: out data port;" => refused(20, place),
        _ => refused(21, place),
    };
    sized(text, answer)
}

/// Types that extend each other or themselves: the way does not end.
fn way_in_a_circle(random: &mut Random) -> Sized {
    let length = random.pick(&[1, 2, 3, 7, 8, 9]);
    let types = way(length, "", "extends w1");
    let (role, asked, number) = random.pick(&[("a: thread s", "a.o", 21), ("b: thread s", "b.i", 0)]);
    let text = TYPE.to_string() + &types + &small().replace(role, &role.replace("thread s", "thread w1"));
    let place = text.find(asked).unwrap_or(0) + 2;
    sized(text, if number == 0 { small_answer() } else { refused(number, place) })
}

/// Filled up to 262,144 bytes or beyond, before, behind or within the text.
fn full_length(random: &mut Random) -> Sized {
    let length = MOST_BYTES + random.pick(&[0, 0, 1, 1, 2, 100]);
    let (from, to, number) = random.pick(&[
        ("", "", 0),
        ("", "", 0),
        ("6 ms", "6 us", 22),
        ("6 ms; Dead", "6 ms; Period => 5 ms; Dead", 20),
        ("a.o", "x.o", 21),
    ]);
    let own = TYPE.to_string() + &small().replacen(from, to, 1);
    let kind = random.below(8);
    let filling = filling(kind, length - own.len());
    let order = random.below(3);
    let (text, moved) = match order {
        0 => (own.clone() + &filling, 0),
        1 => (filling + &own, length - own.len()),
        _ => (own.replacen("process impl", &(filling + "process impl"), 1), length - own.len()),
    };
    let text_end = text.len();
    let fault = match number {
        22 => own.find("us").unwrap_or(0),
        20 => own.find("Period => 5").unwrap_or(0),
        _ => own.find("x.o").unwrap_or(0),
    };
    // What is judged is not looked at in a text that is too long.
    let is_noted = matches!(number, 20 | 22) && fault + moved < MOST_BYTES;
    if order == 0 && length > MOST_BYTES && matches!(kind, 3..=5) {
        // It depends on the token that is cut.
        return Sized { text: text.into_bytes(), answer: None };
    }
    let answer = match number {
        0 if text_end <= MOST_BYTES => small_answer(),
        _ if is_noted || (number == 21 && text_end <= MOST_BYTES) => refused(number, fault + moved),
        _ => refused(20, MOST_BYTES),
    };
    sized(text, answer)
}

/// So many bytes that change nothing where a declaration may stand.
fn filling(kind: u64, length: usize) -> String {
    let unit = match kind {
        0 => " ",
        1 => "\n",
        2 => "-- end; {** \" ((((((((( Period => 5 us;\n",
        3 => "data d end d;\n",
        4 => "annex x {** end ((( **};\n",
        5 => "\t\r\n\x0b\x0c system s Period => 5 us; end s;",
        // One declaration or one comment.
        6 => {
            let (before, behind) = ("thread f properties ", "end f;");
            let inner = length - before.len() - behind.len();
            return before.to_string() + &padded("x => (1, [y => \"z\";]), 5 us;\n", inner) + behind;
        }
        _ => return format!("--{}\n", "-".repeat(length - 3)),
    };
    padded(unit, length)
}

fn padded(unit: &str, length: usize) -> String {
    let whole = unit.repeat(length / unit.len());
    let left = length - whole.len();
    whole + &" ".repeat(left)
}

/// "a Period of 0 or of 10^30 ms is for planning to refuse (2), and nothing overflows"
fn number(random: &mut Random) -> Sized {
    let huge = random.pick(&[16, 19, 20, 30, 39, 40, 400, 100_000]);
    let values = [
        ("0 ms".to_string(), 2),
        ("0.000 sec".to_string(), 2),
        (format!("1{} ms", "0".repeat(huge)), 2),
        (format!("{} sec", "9".repeat(huge)), 2),
        (format!("1{}.0 sec", "_0".repeat(huge)), 2),
        ("60_001 ms".to_string(), 2),
        ("65_536 ms".to_string(), 2),
        ("65.542 sec".to_string(), 2),
        ("4294967302 ms".to_string(), 2),
        ("18446744073709551622 ms".to_string(), 2),
        ("18446744073709551.622 sec".to_string(), 2),
        ("340282366920938463463374607431768211462 ms".to_string(), 2),
        (format!("{}6 ms", "0".repeat(huge)), 0),
        (format!("6.{} ms", "0".repeat(huge)), 0),
        (format!("0.006{} sec", "0".repeat(huge)), 0),
        (format!("6.{}1 ms", "0".repeat(huge)), 22),
        (format!("0.006{}1 sec", "0".repeat(huge)), 22),
    ];
    let (value, number) = &values[random.below(values.len() as u64) as usize];
    let is_deadline = random.once_in(3) && *number != 0;
    let text = TYPE.to_string() + &small();
    let text = if is_deadline { text.replace("5 ms", value) } else { text.replace("6 ms", value) };
    let place = text.find(value).unwrap_or(0);
    let answer = match number {
        0 => small_answer(),
        2 => "7f0201\n".to_string(),
        _ => refused(*number, place),
    };
    sized(text, answer)
}

/// "0 to 255", by a NUMBER that may have any length; "A Priority over 255 is 20 at its NUMBER".
fn priority(random: &mut Random) -> Sized {
    let zeros = "0".repeat(random.pick(&[1, 20, 100_000]));
    let values = [
        ("0".to_string(), Some(0)),
        ("255".to_string(), Some(255)),
        (format!("{zeros}255"), Some(255)),
        (format!("{zeros}__2_5_4__"), Some(254)),
        ("256".to_string(), None),
        (format!("{zeros}256"), None),
        (format!("1{zeros}00"), None),
        (format!("9{zeros}_99"), None),
        (format!("{zeros}.0"), None),
        (format!("7.{zeros}"), None),
    ];
    let (value, priority) = &values[random.below(values.len() as u64) as usize];
    let text = TYPE.to_string() + &small();
    let text = text.replace("5 ms;}", &format!("5 ms; Thread_Properties::Priority => {value};}}"));
    let place = text.find(value.as_str()).unwrap_or(0);
    sized(text, priority.map_or(refused(20, place), small_answer_with))
}

/// Thousands of types, the last of them declared twice or not.
fn many_types(random: &mut Random) -> Sized {
    let list: String =
        (0..6_000).map(|index| format!("thread k{index} extends k{} end k{index};\n", index + 1)).collect();
    let own = TYPE.to_string() + &small() + &list;
    if random.once_in(2) {
        return sized(own, small_answer());
    }
    let place = own.len() + "thread ".len();
    let again = random.below(6_000);
    sized(own + &format!("thread K{again} end k{again};"), refused(20, place))
}

/// Thousands of ports of one type, the last of them declared twice or not.
fn many_ports(random: &mut Random) -> Sized {
    let list: String = (0..4_000).map(|index| format!("k{index}: out event port;\n")).collect();
    let again = random.below(4_000);
    let last = random.pick(&["", "again"]);
    let port = if last.is_empty() { String::new() } else { format!("K{again}: in data port;") };
    let text = TYPE.replace("end s;", &format!("{list}{port}end s;")) + &small();
    let place = text.find('K').unwrap_or(0);
    sized(text, if last.is_empty() { small_answer() } else { refused(20, place) })
}

/// Thousands of quotes, annexes and brackets that nothing closes, in what is skipped.
fn nothing_closed(random: &mut Random) -> Sized {
    let unit = random.pick(&["{** ", "\"\n", "\"\"\"\n", "{ ( [ ", "\"a\"\"b\n", "{***}", "applies "]);
    let many = unit.repeat(20_000);
    let skipped = random.pick(&["system x MANY end x;\n", "thread x calls MANY end x;\n"]);
    sized(TYPE.to_string() + &skipped.replace("MANY", &many) + &small(), small_answer())
}

/// Thousands of words that "applies" behind them would make 20, with it or without it.
fn reaching_from_outside(random: &mut Random) -> Sized {
    let words = random.pick(&["Period => ", "Deadline +=> ", "Dispatch_Offset =>\n", "Priority => "]);
    let many = words.repeat(10_000);
    let behind = random.pick(&["", "applies to x;", "; applies"]);
    let skipped = format!("process x {many} {behind} end x;\n");
    let place = TYPE.len() + "process x ".len();
    let answer = if behind == "applies to x;" { refused(20, place) } else { small_answer() };
    sized(TYPE.to_string() + &skipped + &small(), answer)
}
