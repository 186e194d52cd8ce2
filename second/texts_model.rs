// A text in the making: its types, implementations, threads and connections as parts that a
// fault can be put into, and how they become one list of pieces.

use crate::model::Table;
use crate::random::Random;
use crate::texts_noise as noise;
use crate::texts_pieces::{piece, pieces, Mark, Piece, Pieces};
use crate::texts_sound::shuffle;

#[derive(Clone, Default)]
pub struct ModelText {
    /// What the text means, where no fault was put into it.
    pub table: Table,
    pub types: Vec<TypeText>,
    pub implementations: Vec<ImplText>,
    pub threads: Vec<ThreadText>,
    pub connections: Vec<ConnectionText>,
    /// Subcomponents, connections, properties and sections beside those of the table.
    pub subcomponents: Vec<Pieces>,
    pub other_connections: Vec<Pieces>,
    pub process_properties: Vec<Pieces>,
    pub process_skipped: Vec<Pieces>,
    pub declarations: Vec<Pieces>,
    /// Declarations behind all others.
    pub last: Vec<Pieces>,
    /// Behind all packages.
    pub behind: Vec<Pieces>,
    pub without_process: bool,
    /// The refusals that are due at the text's end.
    pub end_marks: Vec<Mark>,
}

#[derive(Clone)]
pub struct TypeText {
    pub name: Piece,
    pub extends: Option<String>,
    pub ports: Vec<PortText>,
    /// Features beside the ports of the table.
    pub features: Vec<Pieces>,
    pub properties: Vec<Vec<Pieces>>,
    pub skipped: Vec<Pieces>,
}

#[derive(Clone)]
pub struct PortText {
    pub name: Piece,
    pub direction: &'static str,
    pub kind: &'static str,
    pub classifier: &'static str,
    pub timing: Option<String>,
    pub block: Pieces,
}

#[derive(Clone)]
pub struct ImplText {
    pub type_name: Piece,
    pub name: String,
    pub properties: Vec<Vec<Pieces>>,
    pub skipped: Vec<Pieces>,
}

#[derive(Clone)]
pub struct ThreadText {
    pub name: Piece,
    /// The package names of its classifier.
    pub prefix: &'static str,
    pub type_name: Piece,
    pub implementation: Option<String>,
    pub block: Vec<Pieces>,
}

#[derive(Clone)]
pub struct ConnectionText {
    pub name: Option<Piece>,
    pub kind: &'static str,
    pub sender: Piece,
    pub out_port: Piece,
    pub arrow: &'static str,
    pub receiver: Piece,
    pub in_port: Piece,
    pub timing: Option<String>,
    pub block: Pieces,
    /// At its first token.
    pub marks: Vec<Mark>,
}

impl Default for TypeText {
    fn default() -> TypeText {
        TypeText {
            name: piece("t"),
            extends: None,
            ports: Vec::new(),
            features: Vec::new(),
            properties: Vec::new(),
            skipped: Vec::new(),
        }
    }
}

impl Default for ImplText {
    fn default() -> ImplText {
        ImplText { type_name: piece("t"), name: "i".to_string(), properties: Vec::new(), skipped: Vec::new() }
    }
}

impl ModelText {
    /// The whole text, in some order of its declarations, in packages or not.
    pub fn pieces(&self, random: &mut Random) -> Pieces {
        let mut list: Vec<Pieces> = Vec::new();
        if !self.without_process {
            list.push(self.process(random));
        }
        list.extend(self.types.iter().map(|declared| declared.pieces(random)));
        list.extend(self.implementations.iter().map(|declared| declared.pieces(random)));
        list.extend(self.declarations.iter().cloned());
        if random.once_in(2) {
            shuffle(&mut list, random);
        }
        list.extend(self.last.iter().cloned());
        let mut all = in_packages(list, random);
        all.extend(self.behind.concat());
        all.push(Piece { bytes: Vec::new(), marks: self.end_marks.clone() });
        all
    }

    fn process(&self, random: &mut Random) -> Pieces {
        let threads = self.threads.iter().map(ThreadText::pieces).collect();
        let connections = self.connections.iter().map(|connection| connection.pieces(random)).collect();
        let threads = mixed_in(threads, &self.subcomponents, random);
        let connections = mixed_in(connections, &self.other_connections, random);
        let sections = merged(
            vec![
                cut_up("subcomponents", threads, random),
                cut_up("connections", connections, random),
                cut_up("properties", self.process_properties.clone(), random),
                self.process_skipped.clone(),
            ],
            random,
        );
        implementation("process", &piece("proc"), "impl", sections)
    }
}

impl TypeText {
    fn pieces(&self, random: &mut Random) -> Pieces {
        let ports = self.ports.iter().map(|port| port.pieces(random)).collect();
        let features = mixed_in(ports, &self.features, random);
        let properties =
            self.properties.iter().map(|section| headed("properties", section.clone())).collect();
        let sections =
            merged(vec![cut_up("features", features, random), properties, self.skipped.clone()], random);
        let mut all = vec![piece("thread"), self.name.clone()];
        if let Some(extended) = &self.extends {
            all.extend(pieces(&format!("extends {extended}")));
        }
        all.extend(sections);
        all.extend([piece("end"), unmarked(&self.name), piece(";")]);
        all
    }
}

impl PortText {
    fn pieces(&self, random: &mut Random) -> Pieces {
        let mut all = vec![self.name.clone(), piece(":")];
        all.extend(pieces(self.direction));
        all.extend(pieces(self.kind));
        all.extend(pieces(self.classifier));
        all.extend(port_block(&self.block, &self.timing, random));
        all.push(piece(";"));
        all
    }
}

impl ImplText {
    fn pieces(&self, random: &mut Random) -> Pieces {
        let properties =
            self.properties.iter().map(|section| headed("properties", section.clone())).collect();
        let sections = merged(vec![properties, self.skipped.clone()], random);
        implementation("thread", &self.type_name, &self.name, sections)
    }
}

impl ThreadText {
    fn pieces(&self) -> Pieces {
        let mut all = vec![self.name.clone()];
        all.extend(pieces(&format!(": thread {}", self.prefix)));
        all.push(self.type_name.clone());
        if let Some(name) = &self.implementation {
            all.extend([piece("."), piece(name)]);
        }
        if !self.block.is_empty() {
            all.push(piece("{"));
            all.extend(self.block.concat());
            all.push(piece("}"));
        }
        all.push(piece(";"));
        all
    }
}

impl ConnectionText {
    fn pieces(&self, random: &mut Random) -> Pieces {
        let mut all = Vec::new();
        if let Some(name) = &self.name {
            all.extend([name.clone(), piece(":")]);
        }
        all.extend(pieces(self.kind));
        all[0].marks.extend(&self.marks);
        all.extend([self.sender.clone(), piece("."), self.out_port.clone()]);
        all.push(piece(self.arrow));
        all.extend([self.receiver.clone(), piece("."), self.in_port.clone()]);
        all.extend(port_block(&self.block, &self.timing, random));
        all.push(piece(";"));
        all
    }
}

fn port_block(block: &Pieces, timing: &Option<String>, random: &mut Random) -> Pieces {
    if block.is_empty() && timing.is_none() {
        return pieces(random.pick(&["", "", "{ }"]));
    }
    let mut all = vec![piece("{")];
    if let Some(timing) = timing {
        let name = random.pick(&["Timing", "Timing", "Communication_Properties :: Timing"]);
        all.extend(pieces(&format!("{name} => {timing} ;")));
    }
    all.extend(block.iter().cloned());
    all.push(piece("}"));
    all
}

pub fn unmarked(marked: &Piece) -> Piece {
    Piece { bytes: marked.bytes.clone(), marks: Vec::new() }
}

fn implementation(word: &str, type_name: &Piece, name: &str, sections: Pieces) -> Pieces {
    let mut all = vec![piece(word), piece("implementation"), type_name.clone(), piece("."), piece(name)];
    all.extend(sections);
    all.extend([piece("end"), unmarked(type_name), piece("."), piece(name), piece(";")]);
    all
}

fn headed(word: &str, items: Vec<Pieces>) -> Pieces {
    let mut all = vec![piece(word)];
    all.extend(items.concat());
    all
}

/// One section or several with all the items in order; an empty one now and then.
fn cut_up(word: &str, items: Vec<Pieces>, random: &mut Random) -> Vec<Pieces> {
    let mut sections = Vec::new();
    let mut rest = items;
    while !rest.is_empty() {
        let first =
            if random.once_in(4) { random.between(0, rest.len() as u64) as usize } else { rest.len() };
        let behind = rest.split_off(first);
        sections.push(headed(word, rest));
        rest = behind;
    }
    if random.once_in(6) {
        let place = random.below(sections.len() as u64 + 1) as usize;
        sections.insert(place, pieces(&format!("{word} none ;")));
    }
    sections
}

/// The lists in any order between them, each in its own order; mostly one behind the other.
fn merged(mut lists: Vec<Vec<Pieces>>, random: &mut Random) -> Pieces {
    let mut all = Vec::new();
    let mixed = random.once_in(2);
    lists.iter_mut().for_each(|list| list.reverse());
    while lists.iter().any(|list| !list.is_empty()) {
        lists.retain(|list| !list.is_empty());
        let chosen = if mixed { random.below(lists.len() as u64) as usize } else { 0 };
        all.extend(lists[chosen].pop().unwrap_or_default());
    }
    all
}

/// The further items anywhere between the items.
fn mixed_in(items: Vec<Pieces>, further: &[Pieces], random: &mut Random) -> Vec<Pieces> {
    let mut all = items;
    for item in further {
        let place = random.below(all.len() as u64 + 1) as usize;
        all.insert(place, item.clone());
    }
    all
}

/// Packages, several of them, or none.
fn in_packages(list: Vec<Pieces>, random: &mut Random) -> Pieces {
    let mut all = Vec::new();
    let with_packages = random.once_in(2);
    let mut rest = list;
    while !rest.is_empty() {
        let count =
            if random.once_in(3) { random.between(1, rest.len() as u64) as usize } else { rest.len() };
        let behind = rest.split_off(count);
        if with_packages && !random.once_in(6) {
            all.extend(package(rest, random));
        } else {
            all.extend(rest.concat());
        }
        rest = behind;
    }
    all
}

fn package(list: Vec<Pieces>, random: &mut Random) -> Pieces {
    let mut all = pieces(random.pick(&["package Pack", "package A :: B", "package a . b :: c"]));
    all.extend(pieces(random.pick(&["", "public", "public with Base_Types ;"])));
    for declared in list {
        if random.once_in(8) {
            all.extend(noise::package_item(random));
        }
        all.extend(declared);
    }
    if random.once_in(4) {
        all.extend(noise::package_item(random));
    }
    all.extend(pieces(random.pick(&["end Pack ;", "end A :: B ;", "end another ;"])));
    all
}
