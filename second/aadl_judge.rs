// The judgement and the table of AADL.md, sections 5 and 6, over a text that was read to its
// end. Every fault is collected; the caller takes the least.

use crate::aadl_declared::{Connection, Declared, Fault, Name, Port};
use crate::aadl_declared::{Process, Thread, ThreadImpl, ThreadType};
use crate::aadl_properties::{Property, Value};
use crate::model::{Queue, Table, Task};
use std::collections::{HashMap, HashSet};
use std::hash::Hash;

/// "8 types at most with the thread's own"
const MOST_TYPES: usize = 8;

/// What the text declares, by name. "Where a name was declared twice, the first counts."
pub struct Judge<'a> {
    declared: &'a Declared,
    types: HashMap<&'a str, &'a ThreadType>,
    implementations: HashMap<(&'a str, &'a str), &'a ThreadImpl>,
    /// By type and port.
    ports: HashMap<(&'a str, &'a str), &'a Port>,
    faults: Vec<Fault>,
}

/// A connection between threads: "both its places have a point".
struct Between<'a> {
    connection: &'a Connection,
    sender: &'a Name,
    out_port: &'a Name,
    receiver: &'a Name,
    in_port: &'a Name,
}

/// The thread's type, then the type that this one extends, and so on.
struct Way<'a> {
    types: Vec<&'a ThreadType>,
    /// "every type on the way stands in the text and the way ends within the 8"
    is_whole: bool,
}

/// All faults of a text that was read to its end.
pub fn judge(declared: &Declared) -> Vec<Fault> {
    let mut judge = Judge::of(declared);
    judge.processes();
    judge.declared_before();
    for process in &declared.processes {
        judge.threads(process);
        judge.connections(process);
    }
    judge.faults
}

/// The table of a text without a fault: "Threads become rows in text order. .. Each receiving
/// port, that is thread and port name, becomes a queue, in the order of its first connection
/// between threads."
pub fn table(declared: &Declared) -> Table {
    let judge = Judge::of(declared);
    let process = &declared.processes[0];
    let mut table = Table::default();
    let mut rows: HashMap<&str, usize> = HashMap::new();
    for thread in &process.threads {
        rows.insert(&thread.name.text, table.tasks.len());
        let period = judge.ticks(thread, Property::Period).expect("no Period was refused before");
        // "No Deadline anywhere: equal to Period."
        let deadline = judge.ticks(thread, Property::Deadline).unwrap_or(period);
        let priority = judge.priority(thread);
        table.tasks.push(Task { period, deadline, priority });
    }
    let mut queues: HashMap<(&str, &str), usize> = HashMap::new();
    for between in between_threads(process) {
        let queue = *queues.entry((&between.receiver.text, &between.in_port.text)).or_insert_with(|| {
            let receiver = rows[between.receiver.text.as_str()];
            table.queues.push(Queue { receiver, senders: Vec::new() });
            table.queues.len() - 1
        });
        table.queues[queue].senders.push(rows[between.sender.text.as_str()]);
    }
    for queue in &mut table.queues {
        queue.senders.sort();
    }
    table
}

/// "A port connection is between threads where both its places have a point; any other is passed
/// over."
fn between_threads(process: &Process) -> Vec<Between<'_>> {
    process
        .connections
        .iter()
        .filter_map(|connection| {
            Some(Between {
                connection,
                sender: &connection.sender.first,
                out_port: connection.sender.second.as_ref()?,
                receiver: &connection.receiver.first,
                in_port: connection.receiver.second.as_ref()?,
            })
        })
        .collect()
}

impl<'a> Judge<'a> {
    fn of(declared: &'a Declared) -> Judge<'a> {
        let mut judge = Judge {
            declared,
            types: HashMap::new(),
            implementations: HashMap::new(),
            ports: HashMap::new(),
            faults: Vec::new(),
        };
        for declared_type in &declared.types {
            let name = declared_type.name.text.as_str();
            if judge.types.contains_key(name) {
                continue;
            }
            judge.types.insert(name, declared_type);
            for port in &declared_type.ports {
                judge.ports.entry((name, &port.name.text)).or_insert(port);
            }
        }
        for implementation in &declared.implementations {
            let names = (implementation.type_name.text.as_str(), implementation.name.as_str());
            judge.implementations.entry(names).or_insert(implementation);
        }
        judge
    }

    fn note(&mut self, number: u8, place: usize) {
        self.faults.push(Fault { place, number });
    }

    /// 20 at the text's end: "no process implementation"; 20 at its "process": "a second process
    /// implementation (its threads and connections are judged by themselves)".
    fn processes(&mut self) {
        if self.declared.processes.is_empty() {
            self.note(20, self.declared.length);
        }
        for process in self.declared.processes.iter().skip(1) {
            self.note(20, process.place);
        }
    }

    /// 20 at the second's NAME (an implementation's: its first NAME): "a thread type, thread
    /// implementation, port of a type, thread of the process, or name of a connection between
    /// threads that was declared before".
    fn declared_before(&mut self) {
        let declared = self.declared;
        self.repeated(declared.types.iter().map(|t| (&t.name.text, t.name.place)));
        let implementations = declared.implementations.iter();
        self.repeated(implementations.map(|i| ((&i.type_name.text, &i.name), i.type_name.place)));
        for declared_type in &declared.types {
            self.repeated(declared_type.ports.iter().map(|p| (&p.name.text, p.name.place)));
        }
        for process in &declared.processes {
            self.repeated(process.threads.iter().map(|t| (&t.name.text, t.name.place)));
            let between = between_threads(process);
            let names = between.iter().filter_map(|b| b.connection.name.as_ref());
            self.repeated(names.map(|name| (&name.text, name.place)));
        }
    }

    fn repeated<K: Eq + Hash>(&mut self, list: impl Iterator<Item = (K, usize)>) {
        let mut before = HashSet::new();
        for (key, place) in list {
            if !before.insert(key) {
                self.note(20, place);
            }
        }
    }

    fn threads(&mut self, process: &'a Process) {
        for thread in &process.threads {
            // 20 at the thread's NAME: "no Period; a Dispatch_Protocol other than Periodic; a
            // Dispatch_Offset".
            let protocol = self.property(thread, Property::DispatchProtocol);
            let is_periodic = protocol.is_none_or(|value| *value == Value::Name("periodic".to_string()));
            let has_period = self.property(thread, Property::Period).is_some();
            let has_offset = self.property(thread, Property::DispatchOffset).is_some();
            if !has_period || !is_periodic || has_offset {
                self.note(20, thread.name.place);
            }
            // 21 at the classifier's type NAME: "neither its type nor the implementation that it
            // names stands in the text".
            let type_name = &thread.classifier.type_name;
            let has_type = self.types.contains_key(type_name.text.as_str());
            if !has_type && self.implementation(thread).is_none() {
                self.note(21, type_name.place);
            }
        }
    }

    fn connections(&mut self, process: &'a Process) {
        let mut threads: HashMap<&str, &Thread> = HashMap::new();
        for thread in &process.threads {
            threads.entry(&thread.name.text).or_insert(thread);
        }
        let mut earlier: HashSet<[&str; 3]> = HashSet::new();
        for between in between_threads(process) {
            let sender = threads.get(between.sender.text.as_str());
            let receiver = threads.get(between.receiver.text.as_str());
            // 21 at the thread's NAME in the connection: "no such thread".
            if sender.is_none() {
                self.note(21, between.sender.place);
            }
            if receiver.is_none() {
                self.note(21, between.receiver.place);
            }
            // "Of a connection with an unknown thread only its name and its threads are judged,
            // not its ports, nor 24."
            let (Some(sender), Some(receiver)) = (sender, receiver) else {
                continue;
            };
            // 24 at the connection's first token: "its sending thread and its receiving port are
            // an earlier connection's".
            if !earlier.insert([&between.sender.text, &between.receiver.text, &between.in_port.text]) {
                self.note(24, between.connection.place);
            }
            self.output_port(sender, &between);
            self.input_port(receiver, &between);
        }
    }

    /// "An output port that is not found is 21, and the Timing is then not judged." 20: "an output
    /// port that is not out or in out, or a Timing that is not Delayed or not there".
    fn output_port(&mut self, sender: &Thread, between: &Between) {
        let place = between.out_port.place;
        let way = self.way(sender);
        let Some(port) = self.port(&way, between.out_port) else {
            return self.note(21, place);
        };
        // "A connection's Timing: from its block; else Delayed where its arrow is `->>`; else
        // from its output port. It has to be Delayed."
        let delayed = Value::Name("delayed".to_string());
        let in_block = find(&between.connection.block, Property::Timing);
        let timing = match in_block {
            Some(timing) => Some(timing),
            None if between.connection.is_delayed_arrow => Some(&delayed),
            None => find(&port.block, Property::Timing),
        };
        if !port.is_out || timing != Some(&delayed) {
            self.note(20, place);
        }
    }

    /// "An input port that is not found is 21 if every type on the way stands in the text and the
    /// way ends within the 8; else the port may stand outside, and its name is taken as it is".
    /// 20: "an input port that is not in or in out".
    fn input_port(&mut self, receiver: &Thread, between: &Between) {
        let place = between.in_port.place;
        let way = self.way(receiver);
        match self.port(&way, between.in_port) {
            Some(port) if !port.is_in => self.note(20, place),
            None if way.is_whole => self.note(21, place),
            _ => {}
        }
    }

    /// "A port is looked for in the thread's type, then in the type that this one extends, and so
    /// on".
    fn port(&self, way: &Way<'a>, name: &Name) -> Option<&'a Port> {
        let mut found =
            way.types.iter().filter_map(|t| self.ports.get(&(t.name.text.as_str(), name.text.as_str())));
        found.next().copied()
    }

    fn way(&self, thread: &Thread) -> Way<'a> {
        let mut types = Vec::new();
        let mut next = self.types.get(thread.classifier.type_name.text.as_str());
        while let Some(found) = next {
            types.push(*found);
            let Some(extended) = &found.extends else {
                return Way { types, is_whole: true };
            };
            if types.len() == MOST_TYPES {
                break;
            }
            next = self.types.get(extended.as_str());
        }
        Way { types, is_whole: false }
    }

    /// "the thread_impl that its classifier names"
    fn implementation(&self, thread: &'a Thread) -> Option<&'a ThreadImpl> {
        let name = thread.classifier.implementation.as_ref()?;
        self.implementations.get(&(thread.classifier.type_name.text.as_str(), name.as_str())).copied()
    }

    /// "from its block; else from the thread_impl that its classifier names; else from the
    /// thread_type, then from the type that this one extends, and so on"
    fn property(&self, thread: &'a Thread, property: Property) -> Option<&'a Value> {
        let mut lists = vec![&thread.block];
        lists.extend(self.implementation(thread).map(|implementation| &implementation.properties));
        lists.extend(self.way(thread).types.iter().map(|t| &t.properties));
        lists.into_iter().find_map(|list| find(list, property))
    }

    fn ticks(&self, thread: &'a Thread, property: Property) -> Option<u64> {
        match self.property(thread, property) {
            Some(Value::Time(ticks)) => *ticks,
            _ => None,
        }
    }

    /// "No Priority: 0."
    fn priority(&self, thread: &'a Thread) -> u64 {
        match self.property(thread, Property::Priority) {
            Some(Value::Number(priority)) => *priority,
            _ => 0,
        }
    }
}

fn find(list: &[(Property, Value)], property: Property) -> Option<&Value> {
    list.iter().find(|(found, _)| *found == property).map(|(_, value)| value)
}
