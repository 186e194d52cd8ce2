// The console of document 01, with line 01 as request b has it: one line in, at most one answer
// out.
//
// Memory is a list of slots; the state is a tick, the last job that sent for each queue and
// task, and the next number to read for each queue.

use crate::model::{plan, refuse, Plan, Queue, Refusal, Table, Task};
use crate::model::{LAST_TICK, MOST_QUEUES, MOST_TASKS, PAYLOAD};

/// No call: the line is no frame, or a frame that has no place here.
const NO_FRAME: &str = "7ff000";
const MOST_DIGITS: usize = 100;

/// Number 0 means never written.
#[derive(Clone, Default)]
struct Slot {
    number: u64,
    payload: Vec<u8>,
}

struct Running {
    plan: Plan,
    memory: Vec<Slot>,
    tick: u64,
    /// By queue and task: the last job that sent.
    last_sent: Vec<Vec<Option<u64>>>,
    /// By queue: the number after the last one read; 0 before the first.
    reading: Vec<u64>,
}

#[derive(Default)]
pub struct Console {
    table: Table,
    running: Option<Running>,
}

impl Console {
    /// The answer to a line without its line feed.
    pub fn answer(&mut self, line: &[u8]) -> Option<String> {
        let Some(frame) = bytes_of_digits(line) else {
            return Some(NO_FRAME.to_string());
        };
        let answer = match (frame[0], frame.len(), self.running.is_some()) {
            (0x01, 5 | 6, false) if self.table.tasks.len() < MOST_TASKS => {
                let period = number_of(&frame[1..3]);
                let deadline = number_of(&frame[3..5]);
                // "A line of five bytes has priority 0".
                let priority = number_of(&frame[5..]);
                self.table.tasks.push(Task { period, deadline, priority });
                return None;
            }
            (0x02, 4, false) if self.table.queues.len() < MOST_QUEUES => {
                let mask = number_of(&frame[2..4]);
                let senders = (0..16).filter(|bit| mask & (1 << bit) != 0).collect();
                self.table.queues.push(Queue { receiver: frame[1] as usize, senders });
                return None;
            }
            (0x03, 1, false) => self.start(),
            (0x04, 8.., true) => {
                let tick = number_of(&frame[3..8]);
                self.running.as_mut().unwrap().send(frame[1] as usize, frame[2] as usize, tick, &frame[8..])
            }
            (0x05, 7, true) => {
                let tick = number_of(&frame[2..7]);
                self.running.as_mut().unwrap().receive(frame[1] as usize, tick)
            }
            _ => return Some(NO_FRAME.to_string()),
        };
        Some(match answer {
            Ok(text) => text,
            Err(Refusal { rule, row }) => format!("7f{rule:02x}{row:02x}"),
        })
    }

    /// A refused 03 empties the table; an accepted one keeps it for good.
    fn start(&mut self) -> Result<String, Refusal> {
        let table = std::mem::take(&mut self.table);
        let plan = plan(&table)?;
        let slots: u64 = plan.queues.iter().map(|queue| queue.size).sum();
        let sizes: String = plan.queues.iter().map(|queue| format!("{:04x}", queue.size)).collect();
        self.running = Some(Running {
            memory: vec![Slot::default(); slots as usize],
            tick: 0,
            last_sent: vec![vec![None; MOST_TASKS]; MOST_QUEUES],
            reading: vec![0; MOST_QUEUES],
            plan,
        });
        Ok(format!("81{sizes}"))
    }
}

impl Running {
    /// Refusals in the order 14, 9, 11, 10, 12, 13.
    fn send(&mut self, queue: usize, row: usize, tick: u64, payload: &[u8]) -> Result<String, Refusal> {
        if payload.len() != PAYLOAD {
            return refuse(14, 0);
        }
        let table = &self.plan.table;
        if queue >= table.queues.len() || !table.queues[queue].senders.contains(&row) {
            return refuse(9, 0);
        }
        let task = table.tasks[row];
        let job = tick / task.period;
        let deadline = job * task.period + task.deadline;
        if tick > LAST_TICK || deadline > LAST_TICK {
            return refuse(11, 0);
        }
        if tick < self.tick {
            return refuse(10, 0);
        }
        if tick >= deadline {
            return refuse(12, 0);
        }
        if self.last_sent[queue][row].is_some_and(|last| last >= job) {
            return refuse(13, 0);
        }
        let planned = &self.plan.queues[queue];
        let number = planned.number(table, row, job);
        let slot = number % planned.size;
        self.memory[(planned.place + slot) as usize] = Slot { number, payload: payload.to_vec() };
        self.last_sent[queue][row] = Some(job);
        self.tick = tick;
        Ok(format!("84{number:012x}{slot:04x}"))
    }

    /// Refusals in the order 9, 11, 10, 12.
    fn receive(&mut self, queue: usize, tick: u64) -> Result<String, Refusal> {
        let table = &self.plan.table;
        if queue >= table.queues.len() {
            return refuse(9, 0);
        }
        if tick > LAST_TICK {
            return refuse(11, 0);
        }
        if tick < self.tick {
            return refuse(10, 0);
        }
        let planned = &self.plan.queues[queue];
        let job = tick / planned.receiver.period;
        if tick >= job * planned.receiver.period + planned.receiver.deadline {
            return refuse(12, 0);
        }
        self.tick = tick;
        let (first, last) = planned.window(job);
        // A reading place before the window counts as its first number.
        let number = self.reading[queue].max(first);
        if number > last {
            return Ok("87".to_string());
        }
        self.reading[queue] = number + 1;
        let slot = &self.memory[(planned.place + number % planned.size) as usize];
        if slot.number == number {
            let payload: String = slot.payload.iter().map(|byte| format!("{byte:02x}")).collect();
            Ok(format!("85{number:012x}{payload}"))
        } else {
            let sender = planned.message(table, number).row;
            Ok(format!("86{number:012x}{sender:02x}"))
        }
    }
}

/// The bytes of a line; none unless it has 2 to 100 lower-case digits, two for each byte.
fn bytes_of_digits(line: &[u8]) -> Option<Vec<u8>> {
    if line.is_empty() || line.len() > MOST_DIGITS || line.len() % 2 != 0 {
        return None;
    }
    let mut bytes = Vec::new();
    for pair in line.chunks(2) {
        bytes.push(digit_value(pair[0])? * 16 + digit_value(pair[1])?);
    }
    Some(bytes)
}

fn digit_value(digit: u8) -> Option<u8> {
    match digit {
        b'0'..=b'9' => Some(digit - b'0'),
        b'a'..=b'f' => Some(digit - b'a' + 10),
        _ => None,
    }
}

/// High byte first.
fn number_of(bytes: &[u8]) -> u64 {
    bytes.iter().fold(0, |value, &byte| value * 256 + byte as u64)
}
