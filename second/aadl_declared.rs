// What a reading of an AADL text keeps: the declarations that AADL.md's sections 5 and 6 ask for,
// and the faults.

use crate::aadl_properties::Properties;

/// "The least place decides, at one place the lower number": the order of the fields.
#[derive(Clone, Copy, PartialEq, Eq, PartialOrd, Ord, Debug)]
pub struct Fault {
    pub place: usize,
    pub number: u8,
}

pub struct Name {
    /// In lower case.
    pub text: String,
    pub place: usize,
}

/// Everything that was declared, in text order.
#[derive(Default)]
pub struct Declared {
    pub types: Vec<ThreadType>,
    pub implementations: Vec<ThreadImpl>,
    pub processes: Vec<Process>,
    /// The place of the text's end.
    pub length: usize,
}

pub struct ThreadType {
    pub name: Name,
    pub extends: Option<String>,
    pub ports: Vec<Port>,
    pub properties: Properties,
}

pub struct ThreadImpl {
    pub type_name: Name,
    pub name: String,
    pub properties: Properties,
}

pub struct Process {
    pub place: usize,
    pub threads: Vec<Thread>,
    /// The port connections; those that are passed over, too.
    pub connections: Vec<Connection>,
}

pub struct Port {
    pub name: Name,
    pub is_in: bool,
    pub is_out: bool,
    pub block: Properties,
}

pub struct Thread {
    pub name: Name,
    pub classifier: Classifier,
    pub block: Properties,
}

pub struct Connection {
    /// Of its first token.
    pub place: usize,
    pub name: Option<Name>,
    pub sender: Place,
    pub receiver: Place,
    pub is_delayed_arrow: bool,
    pub block: Properties,
}

pub struct Place {
    pub first: Name,
    pub second: Option<Name>,
}

/// "In a classifier only the last type's name and the implementation's count; package names do
/// not."
pub struct Classifier {
    pub type_name: Name,
    pub implementation: Option<String>,
}
