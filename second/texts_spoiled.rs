// Spoiled texts: tokens deleted, doubled, exchanged or replaced, bytes changed, and texts cut
// short anywhere. Nobody knows their answers beforehand.

use crate::aadl_tokens::RESERVED;
use crate::random::Random;
use crate::texts_pieces::{piece, Piece, Pieces};

/// Everything the grammar knows beside the reserved words, and a little that it does not.
#[rustfmt::skip]
const TOKENS: [&str; 54] = [
    "=>", "+=>", "->", "->>", "<->", "::", "..", ":", ";", ",", ".", "(", ")", "[", "]", "{", "}",
    "{**", "**}", "{** **}", "\"", "\"\"", "\"x\"", "--", "-", "+", "*", "=", ">", "0", "5", "0.5",
    "1_0", "5 ms", "ms", "sec", "us", "x", "T1", "Period", "Deadline", "Timing", "Delayed", "Immediate",
    "Periodic", "Dispatch_Offset", "Dispatch_Protocol", "Priority", "Timing_Properties", "none ;",
    "\u{e9}", "\n", "256", "Thread_Properties",
];

pub fn spoiled_pieces(mut list: Pieces, random: &mut Random) -> Pieces {
    for _ in 0..random.pick(&[1, 1, 1, 2, 4]) {
        if list.is_empty() {
            return list;
        }
        let place = random.below(list.len() as u64) as usize;
        let other = random.below(list.len() as u64) as usize;
        match random.below(9) {
            0 => {
                list.remove(place);
            }
            1 => {
                let doubled = list[place].clone();
                list.insert(place, doubled);
            }
            2 => list.swap(place, other),
            3 => {
                let next = (place + 1).min(list.len() - 1);
                list.swap(place, next);
            }
            4 => list[place] = any_token(random),
            5 => list.insert(place, any_token(random)),
            // A name of the text for another one: most texts stay within the grammar.
            6 | 7 => exchange_names(&mut list, place, other),
            // A stretch of the text once more, or left out.
            _ => {
                let end = (place + random.between(1, 30) as usize).min(list.len());
                let stretch: Pieces = list[place..end].to_vec();
                if random.once_in(2) {
                    list.splice(place..place, stretch);
                } else {
                    list.drain(place..end);
                }
            }
        }
    }
    list
}

fn any_token(random: &mut Random) -> Piece {
    let reserved = random.once_in(2);
    piece(if reserved { random.pick(&RESERVED) } else { random.pick(&TOKENS) })
}

fn is_name(piece: &Piece) -> bool {
    let word = String::from_utf8_lossy(&piece.bytes).to_ascii_lowercase();
    piece.bytes[0].is_ascii_alphabetic() && !RESERVED.contains(&word.as_str())
}

/// Makes the name at or behind one place the same as the one at or behind the other.
fn exchange_names(list: &mut [Piece], place: usize, other: usize) {
    let from = (place..list.len()).find(|&index| is_name(&list[index]));
    let to = (other..list.len()).find(|&index| is_name(&list[index]));
    if let (Some(from), Some(to)) = (from, to) {
        list[to] = list[from].clone();
    }
}

pub fn spoiled_bytes(mut bytes: Vec<u8>, random: &mut Random) -> Vec<u8> {
    for _ in 0..random.pick(&[1, 1, 2, 3, 10]) {
        if bytes.is_empty() {
            return bytes;
        }
        let place = random.below(bytes.len() as u64) as usize;
        match random.below(9) {
            0 => bytes[place] = random.any() as u8,
            1 => bytes[place] = any_byte(random),
            2 => bytes.insert(place, any_byte(random)),
            3 => {
                bytes.remove(place);
            }
            4 => bytes[place] ^= 1 << random.below(8),
            // Cut short at any byte, most of all near the end.
            5 | 6 => bytes.truncate(place),
            7 => {
                let left = bytes.len() - random.below(bytes.len().min(40) as u64) as usize;
                bytes.truncate(left);
            }
            // From any byte on.
            _ => {
                if random.once_in(4) {
                    bytes.drain(..place);
                } else {
                    let token = random.pick(&TOKENS);
                    bytes.splice(place..place, token.bytes());
                }
            }
        }
    }
    bytes
}

/// A byte that begins, ends or splits tokens.
fn any_byte(random: &mut Random) -> u8 {
    random.pick(b"\"\n\r\t -->=<+:.;,{}()[]*_09aZ\0\x80\xef\xbb\xbf\x0b\x0c\x1f\x7f")
}
