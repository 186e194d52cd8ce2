// Sessions from seeds: some refused tables, then a good one, then sends, receives and lines
// that are wrong in every way a console can meet.
//
// The generator only knows the table; it never looks at an answer.

use crate::lines::{awkward_line, endless_line, payload, table_frame, Line};
use crate::lines::{queue_line, receive_line, send_line, start_line, task_line};
use crate::model::{plan, Table, LAST_TICK};
use crate::random::Random;
use crate::tables::{crowded, refused_table, table_of_shape, Rows, TaskRow, REFUSED_SHAPES, SHAPES};

pub struct Session {
    pub lines: Vec<Line>,
    /// Whether the last line has its line feed.
    pub ended: bool,
}

impl Session {
    pub fn text(&self) -> Vec<u8> {
        let mut text = self.lines.join(&b'\n');
        // Without a line feed an empty last line would be no line at all.
        if !self.lines.is_empty() && (self.ended || self.lines.last().unwrap().is_empty()) {
            text.push(b'\n');
        }
        text
    }
}

pub fn session(seed: u64) -> Session {
    let mut random = Random::from_seed(seed);
    let mut lines = Vec::new();
    // Now and then an input with no line, or with empty lines only.
    if random.once_in(200) {
        lines.resize(random.below(3) as usize, Vec::new());
        return Session { lines, ended: true };
    }
    for _ in 0..random.below(4) {
        let shape = random.below(REFUSED_SHAPES);
        let rows = refused_table(shape, &mut random);
        write_table(&rows, &mut random, &mut lines);
    }
    let rows = if random.once_in(12) { crowded(&mut random) } else { table_of_shape(seed % SHAPES, &mut random) };
    write_table(&rows, &mut random, &mut lines);
    let table = rows.to_table();
    let calls = match seed % 100 {
        // Every call is answered as no frame; a few of them will do.
        _ if plan(&table).is_err() => 10,
        // More than a block of 64 KiB.
        50 => 3_000,
        _ => random.between(80, 200),
    };
    Traffic::over(&table, &mut random).write(calls, &mut random, &mut lines);
    if random.once_in(25) {
        let place = random.below(lines.len() as u64 + 1) as usize;
        let start = lines[..place].iter().map(|line| line.len() + 1).sum();
        lines.insert(place, endless_line(&mut random, start));
    }
    Session { lines, ended: !random.once_in(4) }
}

/// The rows in order, tasks and queues now and then mixed, then 03; bad lines between.
fn write_table(rows: &Rows, random: &mut Random, lines: &mut Vec<Line>) {
    let mix = random.once_in(4);
    let bad = random.once_in(2);
    let (mut task, mut queue) = (0, 0);
    while task < rows.tasks.len() || queue < rows.queues.len() {
        if bad && random.once_in(6) {
            lines.push(misplaced_line(random));
        }
        let queue_now = task == rows.tasks.len() || (mix && queue < rows.queues.len() && random.once_in(2));
        if queue_now {
            let (receiver, mask) = rows.queues[queue];
            lines.push(queue_line(receiver, mask));
            queue += 1;
        } else {
            let TaskRow { period, deadline, priority } = rows.tasks[task];
            lines.push(task_line(period, deadline, priority));
            task += 1;
        }
    }
    lines.push(start_line());
}

/// Before an accepted 03: a bad line or a call that is too early. Never a good 01 to 03,
/// which would change the table.
fn misplaced_line(random: &mut Random) -> Line {
    match random.below(4) {
        0 => receive_line(0, random.below(100)),
        1 => {
            let length = random.pick(&[0, 1, 23, 24, 25, 42]);
            send_line(0, 0, random.below(100), &payload(random, length))
        }
        _ => awkward_line(random),
    }
}

/// A walk over ticks with calls on the way.
struct Traffic {
    table: Table,
    tick: u64,
    /// The queue that most calls are for, so that sent messages are also read.
    busiest: u64,
    last_call: Line,
}

impl Traffic {
    /// Starts at 0, somewhere on the way, or shortly before the last tick.
    fn over(table: &Table, random: &mut Random) -> Traffic {
        let tick = match random.below(10) {
            0..=4 => 0,
            5..=6 => random.below(1_000),
            7..=8 => random.below(LAST_TICK),
            _ => near_the_end(random),
        };
        let busiest = random.below(table.queues.len().max(1) as u64);
        Traffic { table: table.clone(), tick, busiest, last_call: receive_line(0, tick) }
    }

    fn write(&mut self, calls: u64, random: &mut Random, lines: &mut Vec<Line>) {
        let goal = lines.len() + calls as usize;
        while lines.len() < goal {
            match random.below(33) {
                0..=4 => {
                    let line = self.send(random);
                    self.call(line, lines);
                }
                5..=12 => self.send_all(random, lines),
                13..=14 => {
                    let line = receive_line(self.some_queue(random), self.tick);
                    self.call(line, lines);
                }
                15..=17 => self.drain(random, lines),
                18..=28 => self.move_on(random),
                29 => lines.push(self.last_call.clone()),
                30 => {
                    let line = self.wrong_call(random);
                    self.call(line, lines);
                }
                31 => lines.push(table_frame(random)),
                _ => lines.push(awkward_line(random)),
            }
        }
    }

    fn call(&mut self, line: Line, lines: &mut Vec<Line>) {
        self.last_call = line.clone();
        lines.push(line);
    }

    fn some_queue(&self, random: &mut Random) -> u64 {
        if !random.once_in(3) {
            return self.busiest;
        }
        random.below(self.table.queues.len().max(1) as u64)
    }

    fn some_task(&self, random: &mut Random) -> u64 {
        random.below(self.table.tasks.len().max(1) as u64)
    }

    fn senders(&self, queue: u64) -> &[usize] {
        self.table.queues.get(queue as usize).map_or(&[], |queue| &queue.senders)
    }

    fn send(&self, random: &mut Random) -> Line {
        let queue = self.some_queue(random);
        let senders = self.senders(queue);
        let task = if senders.is_empty() { 0 } else { random.pick(senders) as u64 };
        send_line(queue, task, self.tick, &payload(random, 24))
    }

    /// Most senders of a queue, in any order; those left out stay silent.
    fn send_all(&mut self, random: &mut Random, lines: &mut Vec<Line>) {
        let queue = self.some_queue(random);
        let mut senders = self.senders(queue).to_vec();
        while !senders.is_empty() {
            let task = senders.swap_remove(random.below(senders.len() as u64) as usize) as u64;
            if !random.once_in(4) {
                let line = send_line(queue, task, self.tick, &payload(random, 24));
                self.call(line, lines);
            }
        }
    }

    /// Receives at one tick, mostly on a later job than before and mostly until the queue is
    /// empty.
    fn drain(&mut self, random: &mut Random, lines: &mut Vec<Line>) {
        let queue = self.some_queue(random);
        if !random.once_in(4) {
            self.move_to_next_job(queue, random);
        }
        let full = self.window_guess(queue) + 1;
        let receives = if random.once_in(3) { random.between(1, full) } else { full };
        for _ in 0..receives.min(40) {
            self.call(receive_line(queue, self.tick), lines);
        }
    }

    /// A tick at which the receiver's next job may act, late enough for some messages.
    fn move_to_next_job(&mut self, queue: u64, random: &mut Random) {
        let receiver = self.table.queues.get(queue as usize).map(|queue| queue.receiver);
        let Some(task) = receiver.and_then(|row| self.table.tasks.get(row)) else {
            return;
        };
        let release = self.tick - self.tick % task.period.max(1) + task.period;
        self.tick = (release + random.below(task.deadline.max(1))).min(LAST_TICK);
    }

    /// About as many messages as a window of this queue has.
    fn window_guess(&self, queue: u64) -> u64 {
        let receiver = self.table.queues.get(queue as usize).map(|queue| queue.receiver);
        let Some(receiver) = receiver.and_then(|row| self.table.tasks.get(row)) else {
            return 1;
        };
        let periods = self.senders(queue).iter().filter_map(|&row| self.table.tasks.get(row));
        periods.map(|sender| receiver.period / sender.period.max(1) + 1).sum()
    }

    /// A small step, a step to an edge of some job, or a jump.
    fn move_on(&mut self, random: &mut Random) {
        let row = self.some_task(random) as usize;
        let Some(task) = self.table.tasks.get(row) else {
            return;
        };
        let period = task.period.max(1);
        let release = self.tick / period * period;
        let edge = match random.below(16) {
            0..=1 => self.tick + random.between(1, 3),
            2..=6 => release + period,
            7 => release + period + random.below(period),
            8..=9 => release + task.deadline.max(1) - 1,
            10..=11 => release + task.deadline,
            12..=13 => release + period + task.deadline.max(1) - 1,
            14 if random.once_in(4) => self.tick + random.below(200_000),
            15 if random.once_in(60) => near_the_end(random),
            15 if random.once_in(60) => LAST_TICK - random.below(2),
            _ => self.tick,
        };
        // Past the last tick nothing is taken, and five bytes hold no more.
        self.tick = self.tick.max(edge).min(LAST_TICK);
    }

    /// One thing wrong, or more: rules 9 to 14 and the order between them.
    fn wrong_call(&self, random: &mut Random) -> Line {
        let five_bytes = (1u64 << 40) - 1;
        let mut tick = self.tick;
        if random.once_in(2) {
            let back = self.tick.saturating_sub(random.between(1, 20));
            tick = random.pick(&[back, 0, LAST_TICK + 1, five_bytes, LAST_TICK + 2, LAST_TICK]);
            // Reaching the last tick by a wrong call would end most sessions there.
            if tick == LAST_TICK && !random.once_in(6) {
                tick = back;
            }
        }
        let queue = if random.once_in(3) {
            random.pick(&[self.table.queues.len() as u64, 7, 8, 255])
        } else {
            self.some_queue(random)
        };
        if random.once_in(3) {
            return receive_line(queue, tick);
        }
        let task = if random.once_in(3) {
            random.pick(&[self.table.tasks.len() as u64, 15, 16, 31, 255])
        } else {
            self.some_task(random)
        };
        let length = if random.once_in(3) { random.pick(&[0, 1, 8, 23, 25, 32, 42]) } else { 24 };
        send_line(queue, task, tick, &payload(random, length))
    }
}


fn near_the_end(random: &mut Random) -> u64 {
    let before = random.pick(&[1, 10, 100, 100_000]);
    LAST_TICK - random.between(0, before)
}
