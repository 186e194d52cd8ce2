// Sound texts: from a table to thread types, implementations, a process and much that is passed
// over, with the times, the priority and the ports of each thread spread over all the places where
// they are read.

use crate::model::{Table, Task};
use crate::random::Random;
use crate::texts_model::{ConnectionText, ImplText, ModelText, PortText, ThreadText, TypeText};
use crate::texts_noise as noise;
use crate::texts_noise::Stands;
use crate::texts_pieces::{piece, pieces, Pieces};

/// What a type, an implementation or a block says of a thread.
#[derive(Clone, Copy, Default)]
struct Level {
    period: Option<u64>,
    deadline: Option<u64>,
    protocol: Option<&'static str>,
    priority: Option<u64>,
}

/// Threads of one type.
struct Kind {
    type_name: String,
    members: Vec<usize>,
    /// The types of the way, as indexes of the model; none where the type is left out of the text.
    way: Vec<usize>,
    /// Whether a port may stand outside the text.
    is_open: bool,
    in_ports: Vec<String>,
    out_ports: Vec<String>,
    /// Implementations in the text.
    implementations: Vec<usize>,
}

struct Builder<'a> {
    table: &'a Table,
    model: ModelText,
    /// By type and by implementation of the model.
    type_levels: Vec<Level>,
    impl_levels: Vec<Level>,
    fresh: u64,
}

pub fn sound(table: &Table, random: &mut Random) -> ModelText {
    let model = ModelText { table: table.clone(), ..ModelText::default() };
    let mut builder = Builder { table, model, type_levels: Vec::new(), impl_levels: Vec::new(), fresh: 0 };
    let thread_names = names(table.tasks.len(), random);
    let kinds = builder.kinds(random);
    let mut threads = Vec::new();
    for kind in &kinds {
        for &row in &kind.members {
            threads.push((row, builder.thread(&thread_names[row], row, kind, random)));
        }
    }
    threads.sort_by_key(|(row, _)| *row);
    builder.model.threads = threads.into_iter().map(|(_, thread)| thread).collect();
    builder.connections(&thread_names, &kinds, random);
    builder.write_levels(random);
    builder.add_noise(random);
    builder.model
}

impl Builder<'_> {
    fn fresh_name(&mut self, stem: &str) -> String {
        self.fresh += 1;
        format!("{stem}{}", self.fresh)
    }

    fn kinds(&mut self, random: &mut Random) -> Vec<Kind> {
        let tasks = self.table.tasks.len();
        let type_names = names(random.between(1, tasks.clamp(1, 4) as u64) as usize, random);
        let mut members = vec![Vec::new(); type_names.len()];
        for row in 0..tasks {
            members[random.below(type_names.len() as u64) as usize].push(row);
        }
        let together = type_names.into_iter().zip(members);
        together.map(|(type_name, members)| self.kind(type_name, members, random)).collect()
    }

    fn kind(&mut self, type_name: String, members: Vec<usize>, random: &mut Random) -> Kind {
        let received = |row: usize| self.table.queues.iter().filter(|queue| queue.receiver == row).count();
        let sends = |row: &usize| self.table.queues.iter().any(|queue| queue.senders.contains(row));
        let ins = members.iter().map(|&row| received(row)).max().unwrap_or(0);
        let outs = if members.iter().any(sends) { random.between(1, 3) as usize } else { 0 };
        let mut port_names = names(ins + outs, random);
        let out_ports = port_names.split_off(ins);
        let left_out = outs == 0 && random.once_in(4);
        let mut kind = Kind {
            type_name,
            members,
            way: Vec::new(),
            is_open: left_out,
            in_ports: port_names,
            out_ports,
            implementations: Vec::new(),
        };
        if !left_out {
            self.add_types(&mut kind, random);
            self.add_ports(&kind, random);
        }
        self.add_implementations(&mut kind, left_out, random);
        kind
    }

    /// The type itself, then those it extends; the last of them may extend one outside the text.
    fn add_types(&mut self, kind: &mut Kind, random: &mut Random) {
        let length = random.pick(&[1, 1, 1, 1, 2, 2, 3, 5, 8]);
        let mut name = kind.type_name.clone();
        for place in 1..=length {
            let next = self.fresh_name("base_");
            let goes_on = place < length || random.once_in(3);
            let outside = place == length;
            let extends = goes_on.then(|| qualified(&next, random));
            kind.way.push(self.model.types.len());
            kind.is_open = goes_on && outside;
            let level = self.any_level(&kind.members, random);
            self.type_levels.push(level);
            self.model.types.push(TypeText { name: piece(&name), extends, ..TypeText::default() });
            name = next;
        }
    }

    fn add_ports(&mut self, kind: &Kind, random: &mut Random) {
        for name in kind.in_ports.iter().chain(&kind.out_ports) {
            let is_out = kind.out_ports.contains(name);
            if !is_out && kind.is_open && random.once_in(3) {
                continue;
            }
            let place = random.below(kind.way.len() as u64) as usize;
            let own = if is_out { "out" } else { "in" };
            let direction = if random.once_in(4) { "in out" } else { own };
            let timing =
                random.pick(&[Some("Delayed"), Some("Delayed"), None, Some("Immediate"), Some("Sampled")]);
            self.add_port(kind.way[place], name, direction, timing, random);
            // Further on the way the name may stand for any other port: the first counts.
            if place + 1 < kind.way.len() && random.once_in(4) {
                let direction = random.pick(&["in", "out", "in out"]);
                let timing = random.pick(&[None, Some("Immediate"), Some("Delayed")]);
                self.add_port(kind.way[place + 1], name, direction, timing, random);
            }
            // "An other_feature is no port."
            if random.once_in(8) {
                let feature = pieces(&format!("{name} : requires data access D ;"));
                self.model.types[kind.way[0]].features.push(feature);
            }
        }
    }

    fn add_port(
        &mut self,
        of: usize,
        name: &str,
        direction: &'static str,
        timing: Option<&'static str>,
        random: &mut Random,
    ) {
        let kind = random.pick(&["data port", "event port", "event data port"]);
        let classifier = random.pick(&["", "", "MyType", "Types :: MyType . i"]);
        let block = noise::associations(Stands::AtPort, random);
        let timing = timing.map(str::to_string);
        let port = PortText { name: piece(name), direction, kind, classifier, timing, block };
        self.model.types[of].ports.push(port);
    }

    fn add_implementations(&mut self, kind: &mut Kind, left_out: bool, random: &mut Random) {
        let least = u64::from(left_out);
        for name in names(random.between(least, 2) as usize, random) {
            kind.implementations.push(self.model.implementations.len());
            let level = self.any_level(&kind.members, random);
            self.impl_levels.push(level);
            let type_name = piece(&kind.type_name);
            self.model.implementations.push(ImplText { type_name, name, ..ImplText::default() });
        }
    }

    /// Values of some thread of the type, so that they are often the ones that are wanted.
    fn any_level(&self, members: &[usize], random: &mut Random) -> Level {
        if members.is_empty() || random.once_in(2) {
            return Level::default();
        }
        let Task { period, deadline, priority } = self.table.tasks[random.pick(members)];
        Level {
            period: random.once_in(2).then_some(period),
            deadline: random.once_in(3).then_some(deadline),
            protocol: random.pick(&[None, None, None, Some("Periodic"), Some("Periodic"), Some("Sporadic")]),
            priority: random.once_in(2).then_some(priority),
        }
    }

    fn thread(&mut self, name: &str, row: usize, kind: &Kind, random: &mut Random) -> ThreadText {
        let Task { period, deadline, priority } = self.table.tasks[row];
        let mut implementation = None;
        let mut levels = Vec::new();
        if !kind.implementations.is_empty() && (kind.way.is_empty() || !random.once_in(3)) {
            let chosen = random.pick(&kind.implementations);
            implementation = Some(self.model.implementations[chosen].name.clone());
            levels.push(self.impl_levels[chosen]);
        } else if random.once_in(2) {
            // The type alone stands in the text.
            implementation = Some(self.fresh_name("outside_"));
        }
        levels.extend(kind.way.iter().map(|&index| self.type_levels[index]));
        let found_period = levels.iter().find_map(|level| level.period);
        let found_deadline = levels.iter().find_map(|level| level.deadline);
        let found_protocol = levels.iter().find_map(|level| level.protocol);
        let found_priority = levels.iter().find_map(|level| level.priority);
        let mut own = Level::default();
        if found_period != Some(period) || random.once_in(4) {
            own.period = Some(period);
        }
        let missing_is_good = found_deadline.is_none() && deadline == period;
        if !(missing_is_good || found_deadline == Some(deadline)) || random.once_in(4) {
            own.deadline = Some(deadline);
        }
        if found_protocol == Some("Sporadic") || random.once_in(6) {
            own.protocol = Some("Periodic");
        }
        if found_priority.unwrap_or(0) != priority || random.once_in(4) {
            own.priority = Some(priority);
        }
        let prefix = random.pick(&["", "", "", "Pack ::", "A :: B ::"]);
        let block = self.level_associations(own, random);
        ThreadText { name: piece(name), prefix, type_name: piece(&kind.type_name), implementation, block }
    }

    fn connections(&mut self, thread_names: &[String], kinds: &[Kind], random: &mut Random) {
        let kind_of = |row: usize| kinds.iter().find(|kind| kind.members.contains(&row)).expect("every row");
        // Each queue by its first connection in order, the others anywhere behind their first.
        let mut order: Vec<(usize, usize)> = Vec::new();
        let mut later: Vec<(usize, usize)> = Vec::new();
        for (queue, row) in self.table.queues.iter().enumerate() {
            let mut senders = row.senders.clone();
            shuffle(&mut senders, random);
            order.extend(senders.first().map(|&first| (queue, first)));
            later.extend(senders.iter().skip(1).map(|&sender| (queue, sender)));
        }
        for (queue, sender) in later {
            let first = order.iter().position(|&(earlier, _)| earlier == queue).expect("its first");
            let place = random.between(first as u64 + 1, order.len() as u64) as usize;
            order.insert(place, (queue, sender));
        }
        let connection_names = names(order.len(), random);
        for ((queue, sender), name) in order.into_iter().zip(connection_names) {
            let receiver = self.table.queues[queue].receiver;
            let turn =
                self.table.queues[..queue].iter().filter(|earlier| earlier.receiver == receiver).count();
            let out_port = pick_name(&kind_of(sender).out_ports, random);
            let timing_of_port = self.timing_of(kind_of(sender), &out_port);
            let (arrow, timing) = delayed(timing_of_port.as_deref(), random);
            self.model.connections.push(ConnectionText {
                name: (!random.once_in(4)).then(|| piece(&name)),
                kind: random.pick(&["port", "port", "data port", "event port", "event data port"]),
                sender: piece(&thread_names[sender]),
                out_port: piece(&out_port),
                arrow,
                receiver: piece(&thread_names[receiver]),
                in_port: piece(&kind_of(receiver).in_ports[turn]),
                timing,
                block: noise::associations(Stands::AtPort, random),
                marks: Vec::new(),
            });
        }
    }

    fn timing_of(&self, kind: &Kind, port: &str) -> Option<String> {
        let types = kind.way.iter().map(|&index| &self.model.types[index]);
        let mut ports = types.flat_map(|t| t.ports.iter()).filter(|p| p.name.bytes == port.as_bytes());
        ports.next().and_then(|port| port.timing.clone())
    }

    fn write_levels(&mut self, random: &mut Random) {
        for index in 0..self.model.types.len() {
            self.model.types[index].properties = self.sections(self.type_levels[index], random);
        }
        for index in 0..self.model.implementations.len() {
            self.model.implementations[index].properties = self.sections(self.impl_levels[index], random);
        }
    }

    /// Several sections now and then: "the first that has the property counts", so any value may
    /// stand in a later one.
    fn sections(&self, level: Level, random: &mut Random) -> Vec<Vec<Pieces>> {
        let mut sections = vec![self.level_associations(level, random)];
        while random.once_in(4) {
            let later = Level {
                period: level.period.and(Some(random.between(1, 99))),
                deadline: level.deadline.and(Some(random.between(1, 99))),
                protocol: level.protocol.and(random.pick(&[Some("Periodic"), Some("Sporadic")])),
                priority: level.priority.and(Some(random.between(0, 255))),
            };
            sections.push(self.level_associations(later, random));
        }
        sections.retain(|section| !section.is_empty() || random.once_in(4));
        sections
    }

    fn level_associations(&self, level: Level, random: &mut Random) -> Vec<Pieces> {
        let mut list = Vec::new();
        if let Some(ticks) = level.period {
            let name = random.pick(&["Period", "Period", "Timing_Properties :: Period"]);
            list.push(pieces(&format!("{name} => {} ;", time(ticks, random))));
        }
        if let Some(ticks) = level.deadline {
            let name = random.pick(&["Deadline", "Deadline", "Timing_Properties :: Deadline"]);
            list.push(pieces(&format!("{name} => {} ;", time(ticks, random))));
        }
        if let Some(protocol) = level.protocol {
            let name = random.pick(&["Dispatch_Protocol", "Thread_Properties :: Dispatch_Protocol"]);
            list.push(pieces(&format!("{name} => {protocol} ;")));
        }
        if let Some(priority) = level.priority {
            let name = random.pick(&["Priority", "Priority", "Thread_Properties :: Priority"]);
            list.push(pieces(&format!("{name} => {} ;", whole_number(priority, random))));
        }
        for _ in 0..random.below(3) {
            list.push(noise::association(Stands::AtThread, random));
        }
        shuffle(&mut list, random);
        list
    }

    fn add_noise(&mut self, random: &mut Random) {
        if random.once_in(4) {
            return;
        }
        for index in 0..self.model.types.len() {
            if random.once_in(3) {
                let name = self.fresh_name("feature_");
                self.model.types[index].features.push(noise::feature(&name, random));
            }
            if random.once_in(3) {
                self.model.types[index].skipped.push(noise::thread_section(random));
            }
        }
        for implementation in &mut self.model.implementations {
            for _ in 0..random.below(3) {
                implementation.skipped.push(noise::thread_section(random));
            }
        }
        // Names that do not count may be those of a thread or a connection.
        let taken: Vec<Vec<u8>> = self.model.threads.iter().map(|thread| thread.name.bytes.clone()).collect();
        for _ in 0..random.below(4) {
            let name = match taken.first() {
                Some(name) if random.once_in(4) => String::from_utf8_lossy(name).to_string(),
                _ => "c1".to_string(),
            };
            self.model.subcomponents.push(noise::subcomponent(&name, random));
            self.model.other_connections.push(noise::connection(&name, random));
        }
        for _ in 0..random.below(3) {
            self.model.process_properties.push(noise::association(Stands::AtProcess, random));
            self.model.process_skipped.push(noise::process_section(random));
        }
        for _ in 0..random.below(5) {
            let name = self.fresh_name("other_");
            self.model.declarations.push(noise::declaration(&name, random));
        }
        if random.once_in(3) {
            self.add_unused_type(random);
        }
    }

    /// "Types and ports that the process does not use may say what they like."
    fn add_unused_type(&mut self, random: &mut Random) {
        let name = self.fresh_name("unused_");
        let properties = random.pick(&[
            "properties Dispatch_Protocol => Sporadic ; Dispatch_Offset => 5 us ;",
            "properties Deadline => 0 ms ; properties Period => 7 ms ; Priority => 255 ;",
            "features p : in data port { Timing => Immediate ; } ; q : out event port ;",
            "features none ; properties none ; features p : out data port X { Period => 3 ; } ;",
        ]);
        self.model.declarations.push(pieces(&format!("thread {name} {properties} end {name} ;")));
        let implementation =
            format!("thread implementation {name} . i properties Dispatch_Offset => ( ) ; end {name} . i ;");
        self.model.declarations.push(pieces(&implementation));
    }
}

/// An arrow and the Timing of its block, so that the connection is Delayed.
fn delayed(timing_of_port: Option<&str>, random: &mut Random) -> (&'static str, Option<String>) {
    match random.below(3) {
        0 if timing_of_port == Some("Delayed") => ("->", None),
        1 => ("->>", None),
        _ => (random.pick(&["->", "->>"]), Some("Delayed".to_string())),
    }
}

/// A time of so many ticks, in one of its many forms.
pub fn time(ticks: u64, random: &mut Random) -> String {
    let milliseconds = random.pick(&["ms", "ms", "Ms", "MS"]);
    let seconds = random.pick(&["sec", "Sec", "SEC"]);
    match random.below(8) {
        0 => format!("{ticks}.0 {milliseconds}"),
        1 => format!("0_0{ticks}_ {milliseconds}"),
        2 => format!("{ticks}.00_0_ {milliseconds}"),
        3 => format!("{}.{:03} {seconds}", ticks / 1_000, ticks % 1_000),
        4 => format!("{}_.{:03}_000 {seconds}", ticks / 1_000, ticks % 1_000),
        5 if ticks % 1_000 == 0 => format!("{} {seconds}", ticks / 1_000),
        6 if ticks % 100 == 0 => format!("{}.{} {seconds}", ticks / 1_000, ticks % 1_000 / 100),
        _ => format!("{ticks} {milliseconds}"),
    }
}

/// A NUMBER without a point, in one of its many forms.
fn whole_number(number: u64, random: &mut Random) -> String {
    match random.below(6) {
        0 => format!("{number}_"),
        1 => format!("0{number}"),
        2 => format!("0_00__{number}__"),
        3 => format!("{}{number}", "0".repeat(30)),
        _ => number.to_string(),
    }
}

fn qualified(name: &str, random: &mut Random) -> String {
    let prefix = random.pick(&["", "", "Pack :: ", "A :: B :: "]);
    let implementation = random.pick(&["", "", "", " . i"]);
    format!("{prefix}{name}{implementation}")
}

/// Names that are no reserved words and differ in more than letter case; many look like words
/// that mean something elsewhere.
fn names(count: usize, random: &mut Random) -> Vec<String> {
    #[rustfmt::skip]
    const ODD: [&str; 24] = [
        "Period", "Deadline", "ms", "sec", "Timing", "Delayed", "Periodic", "ends", "threads",
        "process_", "e", "E_", "none_", "a", "b", "impl", "i", "Dispatch_Offset", "port1", "features_",
        "T1", "T_1", "T1_", "T11",
    ];
    let stem = random.pick(&["T", "Task_", "thread_", "in_", "P", "x_y_", "Timing"]);
    let mut list: Vec<String> = (1..=count).map(|index| format!("{stem}{index}")).collect();
    if random.once_in(3) && count <= ODD.len() {
        list = ODD.iter().map(|name| name.to_string()).collect();
        shuffle(&mut list, random);
        list.truncate(count);
    }
    list
}

fn pick_name(list: &[String], random: &mut Random) -> String {
    list[random.below(list.len() as u64) as usize].clone()
}

pub fn shuffle<T>(list: &mut [T], random: &mut Random) {
    for end in (1..list.len()).rev() {
        list.swap(end, random.below(end as u64 + 1) as usize);
    }
}
