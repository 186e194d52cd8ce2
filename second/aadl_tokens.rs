// The tokens of AADL.md, section 1: the whole text is cut into a list before anything is read.

#[derive(Clone, Copy, PartialEq, Debug)]
pub enum Sort {
    Word,
    Number,
    Quoted,
    Annex,
    /// A sign of two or three bytes, or any other byte by itself.
    Sign,
    /// The text's end: stands behind the last token.
    End,
}

#[derive(Clone, PartialEq, Debug)]
pub struct Token {
    /// "A place is the number of bytes before a token's first byte; the text's end is at its
    /// length."
    pub place: usize,
    pub sort: Sort,
    /// A word's bytes are in lower case: "Words compare without regard to letter case."
    pub bytes: Vec<u8>,
}

/// "A reserved word is no NAME."
#[rustfmt::skip]
pub const RESERVED: [&str; 69] = [
    "abstract", "access", "annex", "and", "applies", "binding", "bus", "calls", "classifier", "compute",
    "connections", "constant", "data", "delta", "device", "end", "event", "extends", "false", "feature",
    "features", "flow", "flows", "group", "implementation", "in", "inherit", "initial", "inverse", "is",
    "list", "memory", "mode", "modes", "none", "not", "of", "or", "out", "package", "parameter", "path",
    "port", "private", "process", "processor", "properties", "property", "prototypes", "provides",
    "public", "range", "record", "reference", "refined", "renames", "requires", "self", "set",
    "subcomponents", "subprogram", "system", "thread", "to", "true", "type", "units", "virtual", "with",
];

pub const SECTION_WORDS: [&str; 9] = [
    "annex",
    "calls",
    "connections",
    "features",
    "flows",
    "modes",
    "properties",
    "prototypes",
    "subcomponents",
];

const SIGNS: [&str; 7] = ["=>", "+=>", "->", "->>", "<->", "::", ".."];

impl Token {
    /// The token as a literal of the grammar would be; nothing for a byte outside ASCII. A
    /// string begins with a quote and an ANNEX with `{**`, so neither is taken for a literal.
    pub fn text(&self) -> &str {
        std::str::from_utf8(&self.bytes).unwrap_or("")
    }

    pub fn is(&self, literal: &str) -> bool {
        self.bytes == literal.as_bytes()
    }

    pub fn is_name(&self) -> bool {
        self.sort == Sort::Word && !RESERVED.contains(&self.text())
    }
}

pub fn tokens(text: &[u8]) -> Vec<Token> {
    let last_annex_end = text.windows(3).rposition(|three| three == b"**}");
    let mut list = Vec::new();
    let mut place = 0;
    while place < text.len() {
        let passed = blank_length(text, place);
        if passed > 0 {
            place += passed;
            continue;
        }
        let (sort, length) = longest_token(text, place, last_annex_end);
        let mut bytes = text[place..place + length].to_vec();
        if sort == Sort::Word {
            bytes.make_ascii_lowercase();
        }
        list.push(Token { place, sort, bytes });
        place += length;
    }
    list.push(Token { place: text.len(), sort: Sort::End, bytes: Vec::new() });
    list
}

/// "Blanks are space, tab, LF, VT, FF and CR, and the three bytes EF BB BF where the text
/// begins with them. A comment runs from `--` to the line's end (LF) or the text's."
fn blank_length(text: &[u8], place: usize) -> usize {
    let rest = &text[place..];
    if place == 0 && rest.starts_with(b"\xef\xbb\xbf") {
        return 3;
    }
    if rest.starts_with(b"--") {
        return rest.iter().position(|&byte| byte == b'\n').unwrap_or(rest.len());
    }
    usize::from(b" \t\n\x0b\x0c\r".contains(&rest[0]))
}

/// "At each place the longest token counts." A length of 0 is no such token.
fn longest_token(text: &[u8], place: usize, last_annex_end: Option<usize>) -> (Sort, usize) {
    let rest = &text[place..];
    let annex_may_close = last_annex_end.is_some_and(|end| end >= place + 3);
    let mut longest = (Sort::Sign, 1);
    for (sort, length) in [
        (Sort::Word, word_length(rest)),
        (Sort::Number, number_length(rest)),
        (Sort::Quoted, string_length(rest)),
        // Only where some `**}` is left: else a text of many `{**` would be searched to its end
        // for each of them.
        (Sort::Annex, if annex_may_close { annex_length(rest) } else { 0 }),
        (Sort::Sign, sign_length(rest)),
    ] {
        if length > longest.1 || (length == 1 && longest == (Sort::Sign, 1)) {
            longest = (sort, length);
        }
    }
    longest
}

/// "word: a letter (ASCII), then letters, digits and underscores."
fn word_length(rest: &[u8]) -> usize {
    if !rest[0].is_ascii_alphabetic() {
        return 0;
    }
    run_length(rest, |byte| byte.is_ascii_alphanumeric() || byte == b'_')
}

/// "NUMBER: a digit, then digits and underscores; then, where a point and a digit follow, the
/// point and digits and underscores."
fn number_length(rest: &[u8]) -> usize {
    if !rest[0].is_ascii_digit() {
        return 0;
    }
    let in_number = |byte: u8| byte.is_ascii_digit() || byte == b'_';
    let whole = run_length(rest, in_number);
    match rest[whole..] {
        [b'.', digit, ..] if digit.is_ascii_digit() => whole + 1 + run_length(&rest[whole + 1..], in_number),
        _ => whole,
    }
}

fn run_length(rest: &[u8], belongs: impl Fn(u8) -> bool) -> usize {
    rest.iter().position(|&byte| !belongs(byte)).unwrap_or(rest.len())
}

/// "string: `"`, any bytes but `"` and LF (`""` stands for a quote), `"`." Each quote that is
/// not the second of a pair may be the last byte, and the longest string counts: `"a""` at a
/// line's end is the string `"a"` and a quote by itself.
fn string_length(rest: &[u8]) -> usize {
    if rest[0] != b'"' {
        return 0;
    }
    let mut longest = 0;
    let mut place = 1;
    while place < rest.len() && rest[place] != b'\n' {
        if rest[place] == b'"' {
            longest = place + 1;
            if rest.get(place + 1) != Some(&b'"') {
                break;
            }
            place += 1;
        }
        place += 1;
    }
    longest
}

/// "ANNEX: `{**`, then up to and with the first `**}` behind it."
fn annex_length(rest: &[u8]) -> usize {
    if !rest.starts_with(b"{**") {
        return 0;
    }
    rest[3..].windows(3).position(|three| three == b"**}").map_or(0, |end| 3 + end + 3)
}

fn sign_length(rest: &[u8]) -> usize {
    let fitting = SIGNS.iter().filter(|sign| rest.starts_with(sign.as_bytes()));
    fitting.map(|sign| sign.len()).max().unwrap_or(0)
}
