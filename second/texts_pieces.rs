// Texts as lists of pieces, one for each token, so that the place of every token is known when
// the text is written out. A piece may be marked with the refusal that is due at its place.

use crate::random::Random;

/// What a refusal does to the reading, by AADL.md's section 6.
#[derive(Clone, Copy, PartialEq, Debug)]
pub enum Class {
    Ends,
    Noted,
    /// Only where nothing ends the reading.
    Judged,
}

#[derive(Clone, Copy, PartialEq, Debug)]
pub struct Mark {
    pub class: Class,
    pub number: u8,
}

/// A piece without bytes is the text's end: nothing behind it is written.
#[derive(Clone, PartialEq, Debug)]
pub struct Piece {
    pub bytes: Vec<u8>,
    pub marks: Vec<Mark>,
}

pub type Pieces = Vec<Piece>;

/// A refusal that is due, with its place.
#[derive(Clone, Copy, PartialEq, Debug)]
pub struct Due {
    pub mark: Mark,
    pub place: usize,
}

pub struct Written {
    pub bytes: Vec<u8>,
    pub due: Vec<Due>,
}

pub fn piece(text: &str) -> Piece {
    Piece { bytes: text.as_bytes().to_vec(), marks: Vec::new() }
}

pub fn marked(text: &str, class: Class, number: u8) -> Piece {
    Piece { bytes: text.as_bytes().to_vec(), marks: vec![Mark { class, number }] }
}

/// The pieces of a pattern: they stand apart by blanks, and `~` is a blank within a piece. `@20e`,
/// `@20n` and `@20j` mark the next piece with a 20 that ends the reading, is noted, is judged;
/// `$` is the text's end.
pub fn pieces(pattern: &str) -> Pieces {
    let mut list = Vec::new();
    let mut marks = Vec::new();
    for word in pattern.split(' ').filter(|word| !word.is_empty()) {
        if let Some(mark) = word.strip_prefix('@') {
            let (number, class) = mark.split_at(2);
            let class = match class {
                "e" => Class::Ends,
                "n" => Class::Noted,
                _ => Class::Judged,
            };
            marks.push(Mark { class, number: number.parse().expect("a mark has two digits") });
            continue;
        }
        let bytes = if word == "$" { Vec::new() } else { word.replace('~', " ").into_bytes() };
        list.push(Piece { bytes, marks: std::mem::take(&mut marks) });
    }
    list
}

#[derive(Clone, Copy, PartialEq)]
enum Blanks {
    /// As people write: lines end behind `;`.
    Plain,
    /// Only where two tokens would become one.
    Few,
    /// Any blanks and comments anywhere.
    Wild,
}

#[derive(Clone, Copy, PartialEq)]
enum Letters {
    AsTheyAre,
    Upper,
    Lower,
    Mixed,
}

/// How a text is written out.
pub struct Style {
    blanks: Blanks,
    letters: Letters,
    byte_order_mark: bool,
}

impl Style {
    pub fn any(random: &mut Random) -> Style {
        Style {
            blanks: random.pick(&[Blanks::Plain, Blanks::Plain, Blanks::Few, Blanks::Wild]),
            letters: random.pick(&[
                Letters::AsTheyAre,
                Letters::AsTheyAre,
                Letters::Upper,
                Letters::Lower,
                Letters::Mixed,
            ]),
            byte_order_mark: random.once_in(12),
        }
    }

    pub fn write(&self, pieces: &[Piece], random: &mut Random) -> Written {
        let mut written = Written { bytes: Vec::new(), due: Vec::new() };
        if self.byte_order_mark {
            written.bytes.extend_from_slice(b"\xef\xbb\xbf");
        }
        if self.blanks == Blanks::Wild {
            let blanks = wild_blanks(random);
            written.bytes.extend(blanks);
        }
        let mut before: &[u8] = b" ";
        for piece in pieces.iter().take_while(|piece| !piece.bytes.is_empty()) {
            let gap = self.gap(before, &piece.bytes, random);
            written.bytes.extend(gap);
            written.mark(piece);
            let bytes = self.in_letters(&piece.bytes, random);
            written.bytes.extend(bytes);
            before = &piece.bytes;
        }
        let last = self.last_blanks(before, random);
        written.bytes.extend(last);
        if let Some(text_end) = pieces.iter().find(|piece| piece.bytes.is_empty()) {
            written.mark(text_end);
        }
        written
    }

    fn gap(&self, before: &[u8], behind: &[u8], random: &mut Random) -> Vec<u8> {
        let must_part = must_part(before, behind);
        match self.blanks {
            Blanks::Plain if before == b";" => b"\n  ".to_vec(),
            Blanks::Plain if must_part => b" ".to_vec(),
            Blanks::Plain if [&b";"[..], b",", b".", b"::", b":", b")"].contains(&behind) => Vec::new(),
            Blanks::Plain if [&b"."[..], b"::", b"("].contains(&before) => Vec::new(),
            Blanks::Plain => b" ".to_vec(),
            Blanks::Few if must_part => random.pick(&[&b" "[..], b"\n", b"\t", b"\r"]).to_vec(),
            Blanks::Few => Vec::new(),
            Blanks::Wild if !must_part && random.once_in(2) => Vec::new(),
            Blanks::Wild => {
                let mut blanks = wild_blanks(random);
                if before.ends_with(b"-") {
                    // With a comment's hyphens directly behind it the hyphen would begin one.
                    blanks.insert(0, b' ');
                }
                blanks
            }
        }
    }

    fn last_blanks(&self, before: &[u8], random: &mut Random) -> Vec<u8> {
        match self.blanks {
            Blanks::Plain => b"\n".to_vec(),
            Blanks::Few => Vec::new(),
            // A comment may end with the text.
            Blanks::Wild if random.once_in(2) && !before.ends_with(b"-") => b"-- process end".to_vec(),
            Blanks::Wild => b" \r\n".to_vec(),
        }
    }

    fn in_letters(&self, bytes: &[u8], random: &mut Random) -> Vec<u8> {
        if !bytes[0].is_ascii_alphabetic() {
            return bytes.to_vec();
        }
        match self.letters {
            Letters::AsTheyAre => bytes.to_vec(),
            Letters::Upper => bytes.to_ascii_uppercase(),
            Letters::Lower => bytes.to_ascii_lowercase(),
            Letters::Mixed => bytes.iter().map(|byte| any_letter_case(*byte, random)).collect(),
        }
    }
}

impl Written {
    fn mark(&mut self, piece: &Piece) {
        let place = self.bytes.len();
        self.due.extend(piece.marks.iter().map(|&mark| Due { mark, place }));
    }
}

fn any_letter_case(byte: u8, random: &mut Random) -> u8 {
    if random.once_in(2) {
        byte.to_ascii_uppercase()
    } else {
        byte.to_ascii_lowercase()
    }
}

/// Whether two tokens could be taken for others without a blank between them; yes now and then
/// where they could not.
fn must_part(before: &[u8], behind: &[u8]) -> bool {
    let (Some(&last), Some(&first)) = (before.last(), behind.first()) else {
        return false;
    };
    let in_word = |byte: u8| byte.is_ascii_alphanumeric() || byte == b'_';
    if in_word(last) && in_word(first) {
        // `5ms` is a NUMBER and a word.
        return !(before[0].is_ascii_digit() && first.is_ascii_alphabetic());
    }
    let joins = b"+-=<>.:*{}\"";
    let number_and_point = before[0].is_ascii_digit() && behind == b".";
    let point_and_number = before == b"." && first.is_ascii_digit();
    number_and_point || point_and_number || (joins.contains(&last) && joins.contains(&first))
}

/// Blanks of all kinds, and comments with everything in them that a reader could stumble over.
fn wild_blanks(random: &mut Random) -> Vec<u8> {
    const BLANKS: [&[u8]; 8] = [b" ", b"\t", b"\n", b"\r\n", b"\x0b", b"\x0c", b"\r", b"   "];
    const COMMENTS: [&[u8]; 11] = [
        b"",
        b"-",
        b"> no arrow",
        b" end x;",
        b" {** never closed",
        b" **} closes nothing",
        b" \"a quote",
        b" Period => 5 us;\r",
        b" \xc3\xa9 \xef\xbb\xbf \x00 \xff",
        b"process implementation p.i end p.i; -- once more",
        b"}])",
    ];
    let mut blanks = Vec::new();
    for _ in 0..random.between(1, 3) {
        if random.once_in(6) {
            blanks.extend_from_slice(b"--");
            blanks.extend_from_slice(random.pick(&COMMENTS));
            blanks.push(b'\n');
        } else {
            blanks.extend_from_slice(random.pick(&BLANKS));
        }
    }
    blanks
}
