// The grammar of AADL.md, sections 2 and 3: a descent over the list of tokens, one function for each
// rule, that keeps what sections 5 and 6 ask for and notes what is wrong. Associations and their
// values are in aadl_properties.rs.

use crate::aadl_declared::{Classifier, Connection, Declared, Fault, Name, Place, Port};
use crate::aadl_declared::{Process, Thread, ThreadImpl, ThreadType};
use crate::aadl_properties::{add_section, property_of, Property, Stands};
use crate::aadl_tokens::{tokens, Sort, Token, SECTION_WORDS};

const OTHER: [&str; 11] = [
    "abstract",
    "bus",
    "data",
    "device",
    "feature",
    "memory",
    "processor",
    "property",
    "subprogram",
    "system",
    "virtual",
];
const SKIPPED_IN_THREADS: [&str; 7] =
    ["prototypes", "subcomponents", "calls", "connections", "flows", "modes", "annex"];
const SKIPPED_IN_PROCESSES: [&str; 4] = ["prototypes", "calls", "flows", "annex"];

/// "each of the two ends the reading"; what ended it is among the faults.
pub struct Ended;
pub type Read<T> = Result<T, Ended>;

pub struct Reader {
    tokens: Vec<Token>,
    at: usize,
    pub faults: Vec<Fault>,
    pub declared: Declared,
}

impl Reader {
    pub fn over(text: &[u8]) -> Reader {
        let declared = Declared { length: text.len(), ..Declared::default() };
        Reader { tokens: tokens(text), at: 0, faults: Vec::new(), declared }
    }

    pub fn next(&self) -> &Token {
        &self.tokens[self.at]
    }

    /// The token behind the next one; the text's end where that is the next.
    pub fn second(&self) -> &Token {
        &self.tokens[(self.at + 1).min(self.tokens.len() - 1)]
    }

    pub fn next_is(&self, literal: &str) -> bool {
        self.next().is(literal)
    }

    pub fn next_is_one_of(&self, literals: &[&str]) -> bool {
        literals.iter().any(|literal| self.next_is(literal))
    }

    pub fn at_text_end(&self) -> bool {
        self.next().sort == Sort::End
    }

    pub fn step(&mut self) {
        if !self.at_text_end() {
            self.at += 1;
        }
    }

    /// Steps over the literal if it is the next token.
    pub fn take(&mut self, literal: &str) -> bool {
        let found = self.next_is(literal);
        if found {
            self.step();
        }
        found
    }

    pub fn note(&mut self, number: u8, place: usize) {
        self.faults.push(Fault { place, number });
    }

    /// "What fits no rule is 20 at that token"
    pub fn fits_no_rule<T>(&mut self) -> Read<T> {
        self.note(20, self.next().place);
        Err(Ended)
    }

    pub fn literal(&mut self, literal: &str) -> Read<()> {
        if !self.take(literal) {
            return self.fits_no_rule();
        }
        Ok(())
    }

    pub fn name(&mut self) -> Read<Name> {
        if !self.next().is_name() {
            return self.fits_no_rule();
        }
        let name = Name { text: self.next().text().to_string(), place: self.next().place };
        self.step();
        Ok(name)
    }

    /// "The names after a thread_type's, thread_impl's or process_impl's "end" are its own;
    /// another name there fits no rule."
    fn own_name(&mut self, own: &str) -> Read<()> {
        if !self.next_is(own) {
            return self.fits_no_rule();
        }
        self.step();
        Ok(())
    }

    /// text = { package | declaration } .
    pub fn text(&mut self) -> Read<()> {
        while !self.at_text_end() {
            if self.next_is("package") {
                self.package()?;
            } else {
                self.declaration()?;
            }
        }
        Ok(())
    }

    /// package = "package" path { "public" | "private" | "with" path { "," path } ";"
    ///         | "properties" associations | declaration } "end" path ";" .
    fn package(&mut self) -> Read<()> {
        self.literal("package")?;
        self.path()?;
        while !self.next_is("end") {
            if self.next_is_one_of(&["public", "private"]) {
                self.step();
            } else if self.take("with") {
                self.path()?;
                while self.take(",") {
                    self.path()?;
                }
                self.literal(";")?;
            } else if self.take("properties") {
                self.associations(Stands::Elsewhere)?;
            } else {
                self.declaration()?;
            }
        }
        self.literal("end")?;
        self.path()?;
        self.literal(";")
    }

    /// declaration = thread_type | thread_impl | process_impl | annex | other .
    /// "other: .., process (where "implementation" does not follow), .., and thread where
    /// "group" follows."
    fn declaration(&mut self) -> Read<()> {
        match (self.next().text(), self.second().text()) {
            ("thread", "implementation") => self.thread_impl(),
            ("thread", "group") => self.other(),
            ("thread", _) => self.thread_type(),
            ("process", "implementation") => self.process_impl(),
            ("process", _) => self.other(),
            ("annex", _) => self.annex(),
            _ if self.next_is_one_of(&OTHER) => self.other(),
            _ => self.fits_no_rule(),
        }
    }

    /// thread_type = "thread" NAME [ "extends" classifier ] { section } "end" NAME ";" .
    fn thread_type(&mut self) -> Read<()> {
        self.literal("thread")?;
        let name = self.name()?;
        let extends = if self.take("extends") { Some(self.classifier()?.type_name.text) } else { None };
        let mut ports = Vec::new();
        let mut properties = Vec::new();
        while !self.next_is("end") {
            if self.take("features") {
                self.none_or(Token::is_name, |reader| reader.feature(&mut ports))?;
            } else if self.take("properties") {
                let section = self.associations(Stands::AtThread)?;
                add_section(&mut properties, section);
            } else {
                self.skipped_section(&SKIPPED_IN_THREADS)?;
            }
        }
        self.literal("end")?;
        self.own_name(&name.text)?;
        self.literal(";")?;
        self.declared.types.push(ThreadType { name, extends, ports, properties });
        Ok(())
    }

    /// thread_impl = "thread" "implementation" NAME "." NAME { section } "end" NAME "." NAME ";" .
    fn thread_impl(&mut self) -> Read<()> {
        self.literal("thread")?;
        let (type_name, name) = self.implementation_names()?;
        let mut properties = Vec::new();
        while !self.next_is("end") {
            if self.take("properties") {
                let section = self.associations(Stands::AtThread)?;
                add_section(&mut properties, section);
            } else {
                self.skipped_section(&SKIPPED_IN_THREADS)?;
            }
        }
        self.end_of_implementation(&type_name.text, &name)?;
        self.declared.implementations.push(ThreadImpl { type_name, name, properties });
        Ok(())
    }

    /// process_impl = "process" "implementation" NAME "." NAME { section } "end" NAME "." NAME ";" .
    fn process_impl(&mut self) -> Read<()> {
        let place = self.next().place;
        self.literal("process")?;
        let (type_name, name) = self.implementation_names()?;
        let mut threads = Vec::new();
        let mut connections = Vec::new();
        while !self.next_is("end") {
            if self.take("subcomponents") {
                self.none_or(Token::is_name, |reader| reader.subcomponent(&mut threads))?;
            } else if self.take("connections") {
                self.none_or(begins_connection, |reader| reader.connection(&mut connections))?;
            } else if self.take("properties") {
                self.associations(Stands::AtProcess)?;
            } else {
                self.skipped_section(&SKIPPED_IN_PROCESSES)?;
            }
        }
        self.end_of_implementation(&type_name.text, &name)?;
        self.declared.processes.push(Process { place, threads, connections });
        Ok(())
    }

    /// "implementation" NAME "." NAME
    fn implementation_names(&mut self) -> Read<(Name, String)> {
        self.literal("implementation")?;
        let type_name = self.name()?;
        self.literal(".")?;
        let name = self.name()?.text;
        Ok((type_name, name))
    }

    /// "end" NAME "." NAME ";"
    fn end_of_implementation(&mut self, type_name: &str, name: &str) -> Read<()> {
        self.literal("end")?;
        self.own_name(type_name)?;
        self.literal(".")?;
        self.own_name(name)?;
        self.literal(";")
    }

    /// annex = "annex" NAME ANNEX ";" .
    fn annex(&mut self) -> Read<()> {
        self.literal("annex")?;
        self.name()?;
        if self.next().sort != Sort::Annex {
            return self.fits_no_rule();
        }
        self.step();
        self.literal(";")
    }

    /// other = a first word of section 3, then any tokens up to the first "end", then "end" path
    /// ";" .
    ///
    /// "while an other that begins with process or system is skipped, a word Period, Deadline,
    /// Dispatch_Protocol, Dispatch_Offset or Priority .. that `=>` or `+=>` follows directly,
    /// whatever stands before it, and behind which "applies" comes before the next `;` and before
    /// the other's "end", is 20 at that word, noted."
    fn other(&mut self) -> Read<()> {
        let reaches_threads = self.next_is_one_of(&["process", "system"]);
        self.step();
        // Such words since the last `;`.
        let mut waiting = Vec::new();
        while !self.next_is("end") {
            if self.at_text_end() {
                return self.fits_no_rule();
            }
            let is_arrow = self.second().is("=>") || self.second().is("+=>");
            if is_arrow && property_of(&[self.next().text()]).is_some_and(Property::is_of_threads) {
                waiting.push(self.next().place);
            }
            if self.next_is(";") {
                waiting.clear();
            }
            if reaches_threads && self.next_is("applies") {
                for place in std::mem::take(&mut waiting) {
                    self.note(20, place);
                }
            }
            self.step();
        }
        self.literal("end")?;
        self.path()?;
        self.literal(";")
    }

    /// section = .. | a skipped section's word (section 3), then any tokens up to the next section
    /// word or "end" . "Any other section word there fits no rule"
    fn skipped_section(&mut self, words: &[&str]) -> Read<()> {
        if !self.next_is_one_of(words) {
            return self.fits_no_rule();
        }
        self.step();
        // At the text's end the reading goes on where "end" or a section is due.
        while !self.next_is_one_of(&SECTION_WORDS) && !self.next_is("end") && !self.at_text_end() {
            self.step();
        }
        Ok(())
    }

    /// "none" ";" | { item }
    pub fn none_or(
        &mut self,
        begins: impl Fn(&Token) -> bool,
        mut item: impl FnMut(&mut Reader) -> Read<()>,
    ) -> Read<()> {
        if self.take("none") {
            return self.literal(";");
        }
        while begins(self.next()) {
            item(self)?;
        }
        Ok(())
    }

    /// feature = NAME ":" ( port | other_feature ) .
    /// other_feature = ( "requires" | "provides" | "feature" ) rest .
    fn feature(&mut self, ports: &mut Vec<Port>) -> Read<()> {
        let name = self.name()?;
        self.literal(":")?;
        if self.next_is_one_of(&["requires", "provides", "feature"]) {
            self.step();
            return self.rest();
        }
        ports.push(self.port(name)?);
        Ok(())
    }

    /// port = ( "in" [ "out" ] | "out" ) ( "data" "port" | "event" [ "data" ] "port" )
    ///        [ classifier ] [ block ] ";" .
    fn port(&mut self, name: Name) -> Read<Port> {
        let is_in = self.take("in");
        let is_out = self.take("out");
        if !is_in && !is_out {
            return self.fits_no_rule();
        }
        if self.take("event") {
            self.take("data");
        } else {
            self.literal("data")?;
        }
        self.literal("port")?;
        if self.next().is_name() {
            self.classifier()?;
        }
        let block = self.block_if_any(Stands::AtPort)?;
        self.literal(";")?;
        Ok(Port { name, is_in, is_out, block })
    }

    /// subcomponent = NAME ":" ( "thread" classifier [ block ] ";"
    ///              | ( "data" | "subprogram" | "abstract" ) rest ) .
    fn subcomponent(&mut self, threads: &mut Vec<Thread>) -> Read<()> {
        let name = self.name()?;
        self.literal(":")?;
        if self.next_is_one_of(&["data", "subprogram", "abstract"]) {
            self.step();
            return self.rest();
        }
        self.literal("thread")?;
        let classifier = self.classifier()?;
        let block = self.block_if_any(Stands::AtThread)?;
        self.literal(";")?;
        threads.push(Thread { name, classifier, block });
        Ok(())
    }

    /// connection = [ NAME ":" ] ( port_kind place ( "->" | "->>" ) place [ block ] ";"
    ///            | other_kind rest ) .
    /// other_kind = "data" "access" | "bus" | "virtual" | "subprogram" | "feature" | "parameter" .
    fn connection(&mut self, connections: &mut Vec<Connection>) -> Read<()> {
        let place = self.next().place;
        let mut name = None;
        if self.next().is_name() {
            name = Some(self.name()?);
            self.literal(":")?;
        }
        // "A port_kind that begins with "data" is told from "data" "access" by its second word."
        if self.next_is("data") && self.second().is("access") {
            self.step();
            self.step();
            return self.rest();
        }
        if self.next_is_one_of(&["bus", "virtual", "subprogram", "feature", "parameter"]) {
            self.step();
            return self.rest();
        }
        self.port_kind()?;
        let sender = self.place()?;
        let is_delayed_arrow = self.next_is("->>");
        if !self.next_is_one_of(&["->", "->>"]) {
            return self.fits_no_rule();
        }
        self.step();
        let receiver = self.place()?;
        let block = self.block_if_any(Stands::AtPort)?;
        self.literal(";")?;
        connections.push(Connection { place, name, sender, receiver, is_delayed_arrow, block });
        Ok(())
    }

    /// port_kind = "port" | "data" "port" | "event" [ "data" ] "port" .
    fn port_kind(&mut self) -> Read<()> {
        self.take("event");
        self.take("data");
        self.literal("port")
    }

    /// place = NAME [ "." NAME ] .
    fn place(&mut self) -> Read<Place> {
        let first = self.name()?;
        let second = if self.take(".") { Some(self.name()?) } else { None };
        Ok(Place { first, second })
    }

    /// rest = { any token but "{" ";" "end" and the text's end } [ block ] ";" .
    fn rest(&mut self) -> Read<()> {
        while !self.next_is_one_of(&["{", ";", "end"]) && !self.at_text_end() {
            self.step();
        }
        self.block_if_any(Stands::Elsewhere)?;
        self.literal(";")
    }

    /// classifier = { NAME "::" } NAME [ "." NAME ] .
    fn classifier(&mut self) -> Read<Classifier> {
        let mut type_name = self.name()?;
        while self.take("::") {
            type_name = self.name()?;
        }
        let implementation = if self.take(".") { Some(self.name()?.text) } else { None };
        Ok(Classifier { type_name, implementation })
    }

    /// path = NAME { ( "::" | "." ) NAME } .
    fn path(&mut self) -> Read<()> {
        self.name()?;
        while self.take("::") || self.take(".") {
            self.name()?;
        }
        Ok(())
    }
}

fn begins_connection(token: &Token) -> bool {
    let kinds = ["port", "data", "event", "bus", "virtual", "subprogram", "feature", "parameter"];
    token.is_name() || kinds.contains(&token.text())
}
