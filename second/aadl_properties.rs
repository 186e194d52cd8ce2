// The properties of AADL.md, section 4, and the values of its grammar: which are read where, by
// which form, and how all others are skipped.

use crate::aadl_grammar::{Ended, Read, Reader};
use crate::aadl_tokens::{Sort, Token};

#[derive(Clone, Copy, PartialEq, Debug)]
pub enum Property {
    Period,
    Deadline,
    DispatchProtocol,
    DispatchOffset,
    Priority,
    Timing,
}

#[derive(Clone, PartialEq, Debug)]
pub enum Value {
    /// Ticks; none for a time with 22, which "is there, for "no Period"".
    Time(Option<u64>),
    Name(String),
    Number(u64),
    Skipped,
}

/// Each property at most once: the one that counts.
pub type Properties = Vec<(Property, Value)>;

/// Where an association stands: it decides which properties are read.
#[derive(Clone, Copy, PartialEq)]
pub enum Stands {
    /// "a thread subcomponent's block; a thread_impl's or thread_type's properties"
    AtThread,
    /// "a port's block; a port connection's block, also of one that is passed over"
    AtPort,
    /// "a process_impl's own properties"
    AtProcess,
    Elsewhere,
}

const MOST_OPEN: usize = 8;
/// No whole number of ticks above this is kept apart from it: planning refuses them all.
const MOST_TICKS: u64 = 1_000_000_000_000_000;
const MOST_PRIORITY: u64 = 255;

impl Reader {
    /// associations = "none" ";" | { association } .
    pub fn associations(&mut self, stands: Stands) -> Read<Properties> {
        let mut section = Vec::new();
        self.none_or(Token::is_name, |reader| reader.association(stands, &mut section))?;
        Ok(section)
    }

    /// block = "{" { association } "}" .
    pub fn block_if_any(&mut self, stands: Stands) -> Read<Properties> {
        let mut block = Vec::new();
        if self.take("{") {
            while self.next().is_name() {
                self.association(stands, &mut block)?;
            }
            self.literal("}")?;
        }
        Ok(block)
    }

    /// association = NAME { "::" NAME } ( "=>" | "+=>" ) value { "," value } ";" .
    fn association(&mut self, stands: Stands, properties: &mut Properties) -> Read<()> {
        let first = self.name()?;
        let first_place = first.place;
        let mut names = vec![first.text];
        while self.take("::") {
            names.push(self.name()?.text);
        }
        let names: Vec<&str> = names.iter().map(|name| name.as_str()).collect();
        let property = property_of(&names);
        if let Some(property) = property.filter(|property| property.is_read(stands)) {
            return self.read_association(first_place, property, properties);
        }
        // "in a process_impl's own properties such a property is 20 at its first NAME, noted as
        // soon as its name is read, and its value skipped"
        if stands == Stands::AtProcess && property.is_some_and(Property::is_of_threads) {
            self.note(20, first_place);
        }
        if !self.next_is_one_of(&["=>", "+=>"]) {
            return self.fits_no_rule();
        }
        self.step();
        self.value(0)?;
        while self.take(",") {
            self.value(0)?;
        }
        self.literal(";")
    }

    /// "There `=>`, the form, then `;`: anything else fits no rule. A second one in the same
    /// block or section is 20 at its first NAME, noted as soon as its name is read; it is read by
    /// its form and does not count."
    fn read_association(&mut self, place: usize, property: Property, list: &mut Properties) -> Read<()> {
        let is_second = list.iter().any(|(earlier, _)| *earlier == property);
        if is_second {
            self.note(20, place);
        }
        self.literal("=>")?;
        let value = match property {
            Property::Period | Property::Deadline => Value::Time(self.time()?),
            Property::DispatchProtocol | Property::Timing => Value::Name(self.name()?.text),
            Property::Priority => Value::Number(self.priority()?),
            Property::DispatchOffset => {
                self.value(0)?;
                Value::Skipped
            }
        };
        self.literal(";")?;
        if !is_second {
            list.push((property, value));
        }
        Ok(())
    }

    /// "A time: NUMBER and a unit, a NAME, ms or sec, letter case aside." "22 while reading: at
    /// the unit, where it is not ms or sec (then the NUMBER is not judged); at the NUMBER, where
    /// no NAME follows or the time is not whole."
    fn time(&mut self) -> Read<Option<u64>> {
        if self.next().sort != Sort::Number {
            return self.fits_no_rule();
        }
        let digits = self.next().text().to_string();
        let number_place = self.next().place;
        self.step();
        if !self.next().is_name() {
            self.note(22, number_place);
            return Ok(None);
        }
        let unit = self.name()?;
        let ticks = match unit.text.as_str() {
            "ms" => whole_ticks(&digits, 0),
            "sec" => whole_ticks(&digits, 3),
            _ => {
                self.note(22, unit.place);
                return Ok(None);
            }
        };
        if ticks.is_none() {
            self.note(22, number_place);
        }
        Ok(ticks)
    }

    /// "NUMBER without a point". "A Priority over 255 is 20 at its NUMBER, noted."
    fn priority(&mut self) -> Read<u64> {
        let number = self.next().text().replace('_', "");
        if self.next().sort != Sort::Number || number.contains('.') {
            return self.fits_no_rule();
        }
        let value = number.bytes().fold(0, |value, digit| {
            let more = value * 10 + u64::from(digit - b'0');
            more.min(MOST_PRIORITY + 1)
        });
        if value > MOST_PRIORITY {
            self.note(20, self.next().place);
        }
        self.step();
        Ok(value)
    }

    /// value = part { part } . `open` is how many ( and [ of the association's value are open.
    fn value(&mut self, open: usize) -> Read<()> {
        self.part(open)?;
        while self.next_is_one_of(&["(", "["]) || self.next_is_atom() {
            self.part(open)?;
        }
        Ok(())
    }

    /// part = "(" [ value { "," value } ] ")" | "[" { NAME "=>" value ";" } "]" | atom .
    fn part(&mut self, open: usize) -> Read<()> {
        if self.next_is_one_of(&["(", "["]) && open == MOST_OPEN {
            // "a ninth open ( or [ within one value is 23 at the bracket"
            self.note(23, self.next().place);
            return Err(Ended);
        }
        if self.take("(") {
            if !self.next_is(")") {
                self.value(open + 1)?;
                while self.take(",") {
                    self.value(open + 1)?;
                }
            }
            return self.literal(")");
        }
        if self.take("[") {
            while self.next().is_name() {
                self.name()?;
                self.literal("=>")?;
                self.value(open + 1)?;
                self.literal(";")?;
            }
            return self.literal("]");
        }
        if !self.next_is_atom() {
            return self.fits_no_rule();
        }
        self.step();
        Ok(())
    }

    /// atom = any token but ( ) [ ] { } , ; => +=> "end" and the text's end .
    fn next_is_atom(&self) -> bool {
        const NO_ATOMS: [&str; 11] = ["(", ")", "[", "]", "{", "}", ",", ";", "=>", "+=>", "end"];
        !self.next_is_one_of(&NO_ATOMS) && !self.at_text_end()
    }
}

/// "Where a declaration has several properties sections, the first that has the property counts."
pub fn add_section(properties: &mut Properties, section: Properties) {
    for (property, value) in section {
        if !properties.iter().any(|(earlier, _)| *earlier == property) {
            properties.push((property, value));
        }
    }
}

impl Property {
    /// The column "where" of section 4.
    fn is_read(self, stands: Stands) -> bool {
        match stands {
            Stands::AtThread => self.is_of_threads(),
            Stands::AtPort => !self.is_of_threads(),
            Stands::AtProcess | Stands::Elsewhere => false,
        }
    }

    /// "(Timing not)"
    pub fn is_of_threads(self) -> bool {
        self != Property::Timing
    }
}

/// The columns "property" and "also as" of section 4.
pub fn property_of(names: &[&str]) -> Option<Property> {
    match names {
        ["period"] | ["timing_properties", "period"] => Some(Property::Period),
        ["deadline"] | ["timing_properties", "deadline"] => Some(Property::Deadline),
        ["dispatch_protocol"] | ["thread_properties", "dispatch_protocol"] => {
            Some(Property::DispatchProtocol)
        }
        ["dispatch_offset"] | ["timing_properties", "dispatch_offset"] => Some(Property::DispatchOffset),
        ["priority"] | ["thread_properties", "priority"] => Some(Property::Priority),
        ["timing"] | ["communication_properties", "timing"] => Some(Property::Timing),
        _ => None,
    }
}

/// "It is whole where it is a whole number of ticks (0.5 sec is 500, 5.0 ms is 5; 0.5 ms and
/// 0.0005 sec are not whole). It has no upper bound here": a unit is ten to the power `tens`
/// ticks, so the point moves by that many digits, and zeros alone may stand behind it.
fn whole_ticks(number: &str, tens: usize) -> Option<u64> {
    let number = number.replace('_', "");
    let (whole, fraction) = number.split_once('.').unwrap_or((&number, ""));
    let (moved, behind) = fraction.split_at(tens.min(fraction.len()));
    if behind.bytes().any(|digit| digit != b'0') {
        return None;
    }
    let zeros = "0".repeat(tens - moved.len());
    let digits = format!("{whole}{moved}{zeros}");
    let add = |ticks: u64, digit: u8| (ticks * 10 + u64::from(digit - b'0')).min(MOST_TICKS);
    Some(digits.bytes().fold(0, add))
}
