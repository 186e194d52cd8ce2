// Lines of the console: frames as they ought to be, and lines that are none.

use crate::random::Random;

pub type Line = Vec<u8>;

/// Five bytes, or six with a priority.
pub fn task_line(period: u16, deadline: u16, priority: Option<u8>) -> Line {
    let sixth = priority.map_or(String::new(), |priority| format!("{priority:02x}"));
    format!("01{period:04x}{deadline:04x}{sixth}").into_bytes()
}

pub fn queue_line(receiver: u8, mask: u16) -> Line {
    format!("02{receiver:02x}{mask:04x}").into_bytes()
}

pub fn start_line() -> Line {
    b"03".to_vec()
}

pub fn send_line(queue: u64, task: u64, tick: u64, payload: &[u8]) -> Line {
    let digits: String = payload.iter().map(|byte| format!("{byte:02x}")).collect();
    format!("04{queue:02x}{task:02x}{tick:010x}{digits}").into_bytes()
}

pub fn receive_line(queue: u64, tick: u64) -> Line {
    format!("05{queue:02x}{tick:010x}").into_bytes()
}

pub fn payload(random: &mut Random, length: u64) -> Vec<u8> {
    (0..length).map(|_| random.any() as u8).collect()
}

/// A line that is no frame, or only just one. Most are a good frame with one thing spoiled.
pub fn awkward_line(random: &mut Random) -> Line {
    let mut line = some_frame(random);
    let place = random.below(line.len() as u64 + 1) as usize;
    let (shortest, longest) = good_lengths(&line);
    match random.below(17) {
        0 => line.clear(),
        // Odd digits.
        1 => {
            line.pop();
        }
        2 => line.insert(place, b'0'),
        // A frame with whole bytes too many or too few.
        3 => line.resize(longest + 2, b'0'),
        4 => line.truncate(shortest - 2),
        5 => line.truncate(2 * random.below(shortest as u64 / 2) as usize),
        // Upper case, in place of a digit or of all letters.
        6 => line = spoiled(line, random.pick(b"ABCDEF"), place),
        7 => {
            line.push(b'a');
            line.push(b'b');
            line.make_ascii_uppercase();
        }
        // The characters next to the digits, and others that look harmless.
        8 => line = spoiled(line, random.pick(b"/:`g@G\0\x7f\xff\x80-+_x"), place),
        9 => line.insert(place, random.pick(b" \t\r\x0b\0")),
        10 => line.push(b'\r'),
        11 => line = [random.pick(b" \t\r"), b' '].iter().copied().chain(line).collect(),
        // Kinds that there are not, answers among them.
        12 => {
            let kind = random.pick(&["00", "06", "07", "10", "30", "7f", "80", "81", "84", "85", "87", "ff"]);
            line.splice(0..2, kind.bytes());
        }
        // Round 100 digits: 42 payload bytes are 100 digits.
        13 => {
            let length = random.between(41, 44);
            line = send_line(0, 0, 0, &payload(random, length));
        }
        14 => {
            line = send_line(0, 0, 0, &payload(random, 42));
            line.push(b'0');
        }
        // A line 01 of seven bytes.
        15 => {
            line = task_line(5, 5, Some(random.below(3) as u8));
            line.extend_from_slice(random.pick(&[b"00", b"01", b"ff"]));
        }
        _ => line = random.pick(&["#", "0", "3", "0x03", "03 ", " 03", "help", "+3"]).as_bytes().to_vec(),
    }
    // A spoiled line must stay one line.
    line.retain(|&byte| byte != b'\n');
    line
}

/// The digits of the shortest and the longest good frame of this kind; a send may have any whole
/// bytes of payload.
fn good_lengths(frame: &[u8]) -> (usize, usize) {
    if frame.starts_with(b"01") {
        return (10, 12);
    }
    (frame.len(), frame.len())
}

const BLOCK: usize = 65_536;

/// A line that begins at byte `start` of the input and goes on a little beyond the end of a
/// block of 64 KiB: still one line and one answer. It repeats the first byte of a frame, so
/// a program that forgets what came before the block sees a good frame.
pub fn endless_line(random: &mut Random, start: usize) -> Line {
    let kind = random.pick(&[b"04", b"04", b"05", b"03"]);
    let beyond = match kind {
        b"04" => 2 * random.between(8, 52),
        b"05" => 14,
        _ => 2,
    };
    let blocks = start / BLOCK + random.between(1, 2) as usize;
    let mut length = blocks * BLOCK - start;
    if length <= 100 {
        length += BLOCK;
    }
    // The pair stands whole at the beginning of the block.
    (0..length + beyond as usize).map(|place| kind[(place + length) % 2]).collect()
}

/// A good 01, 02 or 03.
pub fn table_frame(random: &mut Random) -> Line {
    match random.below(3) {
        0 => task_line(random.between(1, 12) as u16, 1, random.pick(&[None, Some(0), Some(1)])),
        1 => queue_line(0, 1),
        _ => start_line(),
    }
}

fn spoiled(mut line: Line, byte: u8, place: usize) -> Line {
    let place = place.min(line.len() - 1);
    line[place] = byte;
    line
}

fn some_frame(random: &mut Random) -> Line {
    match random.below(5) {
        0..=2 => table_frame(random),
        3 => {
            let tick = random.below(1_000);
            send_line(0, random.below(3), tick, &payload(random, 24))
        }
        _ => receive_line(0, random.below(1_000)),
    }
}
