// Tables for the sessions: small and awkward ones that are mostly taken, ones that meet a
// limit, and ones that break a rule, alone or together with a later rule.
//
// Rows are kept as they stand in frames, so that values out of range can be written.

use crate::model::{Queue, Table, Task, MOST_QUEUES, MOST_TASKS};
use crate::random::Random;

#[derive(Clone, Copy)]
pub struct TaskRow {
    pub period: u16,
    pub deadline: u16,
    /// The sixth byte; none in a line of five.
    pub priority: Option<u8>,
}

#[derive(Clone, Default)]
pub struct Rows {
    pub tasks: Vec<TaskRow>,
    /// Receiver and sender mask.
    pub queues: Vec<(u8, u16)>,
}

impl Rows {
    fn task(&mut self, period: u64, deadline: u64) {
        self.tasks.push(TaskRow { period: period as u16, deadline: deadline as u16, priority: None });
    }

    fn all_tasks(&mut self, tasks: &[(u64, u64)]) {
        for &(period, deadline) in tasks {
            self.task(period, deadline);
        }
    }

    /// Priorities for all rows by one of the sets, or for none: small sets, so that equal and
    /// unequal ones both come often.
    pub fn draw_priorities(&mut self, random: &mut Random) {
        const SETS: [&[Option<u8>]; 7] = [
            &[None],
            &[None, Some(0)],
            &[None, Some(1)],
            &[Some(0), Some(1)],
            &[None, Some(0), Some(1), Some(2), Some(3)],
            &[Some(0), Some(127), Some(128), Some(254), Some(255)],
            &[None, Some(255)],
        ];
        let any = random.once_in(8);
        let set = random.pick(&SETS);
        for task in &mut self.tasks {
            task.priority = if any { Some(random.any() as u8) } else { random.pick(set) };
        }
    }

    fn queue(&mut self, receiver: u64, senders: &[u64]) {
        let mask = senders.iter().fold(0, |mask, &sender| mask | 1u16 << sender);
        self.queues.push((receiver as u8, mask));
    }

    /// The table that a console has after these rows: those beyond 16 and 8 are not taken.
    pub fn to_table(&self) -> Table {
        let task = |row: &TaskRow| Task {
            period: row.period as u64,
            deadline: row.deadline as u64,
            priority: row.priority.unwrap_or(0) as u64,
        };
        let queue = |&(receiver, mask): &(u8, u16)| Queue {
            receiver: receiver as usize,
            senders: (0..16).filter(|bit| mask & (1 << bit) != 0).collect(),
        };
        Table {
            tasks: self.tasks.iter().take(MOST_TASKS).map(task).collect(),
            queues: self.queues.iter().take(MOST_QUEUES).map(queue).collect(),
        }
    }
}

pub const SHAPES: u64 = 17;

/// A table of the given shape; most are accepted by 03.
pub fn table_of_shape(shape: u64, random: &mut Random) -> Rows {
    if shape == 13 {
        return sized_by_priority(random);
    }
    let mut rows = plain_table(shape, random);
    rows.draw_priorities(random);
    rows
}

fn plain_table(shape: u64, random: &mut Random) -> Rows {
    match shape {
        0 => mixed(random, 5, 4, &[1, 2, 3, 4, 5, 6, 7, 8, 9, 10, 11, 12], Deadlines::Any),
        1 => mixed(random, 6, 4, &[1, 2, 4, 8, 16, 32], Deadlines::Any),
        2 => mixed(random, 5, 3, &[2, 3, 5, 7, 11, 13], Deadlines::Any),
        3 => mixed(random, 6, 3, &[4, 6, 12], Deadlines::Alike),
        4 => mixed(random, 6, 4, &[2, 3, 4, 6], Deadlines::Whole),
        5 => self_sending(random),
        6 => reckoned_by_hand(random),
        7 => mixed(random, 16, 8, &[1, 2, 3, 4, 6, 12], Deadlines::Any),
        8 => full(random),
        9 => mixed(random, 6, 4, &[60_000, 30_000, 20_000, 12_000, 15_000, 6_000], Deadlines::Any),
        10 => most_messages(random, 4_096),
        11 => slots_together(random, 1_024),
        12 => most_hyperperiod(random),
        14 | 15 => all_alike(random),
        _ => mixed(random, 4, 3, &[97, 100, 101, 128, 250, 1_000], Deadlines::Any),
    }
}

enum Deadlines {
    Any,
    /// The same small deadline in many rows: many messages with equal deadlines.
    Alike,
    /// The period itself.
    Whole,
}

fn mixed(random: &mut Random, most_tasks: u64, most_queues: u64, periods: &[u64], deadlines: Deadlines) -> Rows {
    let mut rows = Rows::default();
    let alike = random.between(1, 4);
    for _ in 0..random.between(1, most_tasks) {
        let period = random.pick(periods);
        let deadline = match deadlines {
            Deadlines::Any if random.once_in(3) => period,
            Deadlines::Any => random.between(1, period),
            Deadlines::Alike => alike.min(period),
            Deadlines::Whole => period,
        };
        rows.task(period, deadline);
    }
    for _ in 0..random.between(1, most_queues) {
        random_queue(&mut rows, random);
    }
    rows
}

fn random_queue(rows: &mut Rows, random: &mut Random) {
    let tasks = rows.tasks.len() as u64;
    let all = (1u64 << tasks) - 1;
    let mut mask = random.any() & all;
    if random.once_in(3) {
        mask &= random.any();
    }
    if mask == 0 {
        mask = 1 << random.below(tasks);
    }
    rows.queues.push((random.below(tasks) as u8, mask as u16));
}

/// Every receiver sends to itself as well, sometimes alone.
fn self_sending(random: &mut Random) -> Rows {
    let mut rows = mixed(random, 4, 4, &[1, 2, 3, 5, 6, 10], Deadlines::Any);
    for (receiver, mask) in rows.queues.iter_mut() {
        let own = 1u16 << *receiver;
        *mask = if random.once_in(3) { own } else { *mask | own };
    }
    rows
}

/// Table A, its variant with receiver 10/8, and the two small tables of p11 and p12.
fn reckoned_by_hand(random: &mut Random) -> Rows {
    let mut rows = Rows::default();
    match random.below(4) {
        0 => {
            rows.all_tasks(&[(5, 5), (7, 7), (10, 10)]);
            rows.queue(2, &[0, 1]);
        }
        1 => {
            rows.all_tasks(&[(5, 5), (7, 7), (10, 8)]);
            rows.queue(2, &[0, 1]);
        }
        2 => {
            rows.all_tasks(&[(10, 10), (10, 10)]);
            rows.queue(1, &[0]);
        }
        _ => {
            rows.all_tasks(&[(10, 1), (2, 1)]);
            rows.queue(1, &[0]);
        }
    }
    rows
}

/// Tables whose size moves when two priorities change places: a slow sender's message that goes
/// last of its deadline is furthest ahead of the messages that are outdated at its early
/// release. As listed, with falling priorities, the slow one goes first. See model_tests.rs for
/// the sizes.
pub const SIZED_BY_PRIORITY: [&[(u64, u64)]; 4] = [
    &[(4, 4), (2, 2), (2, 2)],
    &[(10, 10), (5, 5), (5, 3)],
    &[(4, 4), (2, 2), (2, 2), (2, 2), (2, 2)],
    // All slots that there are, or one more.
    &[(4, 4), (1, 1), (412, 405)],
];

fn sized_by_priority(random: &mut Random) -> Rows {
    let tasks = random.pick(&SIZED_BY_PRIORITY);
    by_falling_priority(tasks, random.once_in(2))
}

/// The last row receives from all the others, which have falling priorities; those of the first
/// and the last sender may be exchanged.
pub fn by_falling_priority(tasks: &[(u64, u64)], exchanged: bool) -> Rows {
    let mut rows = Rows::default();
    rows.all_tasks(tasks);
    let receiver = tasks.len() - 1;
    for (row, task) in rows.tasks.iter_mut().enumerate() {
        task.priority = Some((receiver - row) as u8);
    }
    if exchanged {
        rows.tasks[0].priority = Some(1);
        rows.tasks[receiver - 1].priority = Some(receiver as u8);
    }
    let senders: Vec<u64> = (0..receiver as u64).collect();
    rows.queue(receiver as u64, &senders);
    rows
}

/// One period and one deadline for all but the receiver: nothing but the priorities and the rows
/// tell the messages apart.
fn all_alike(random: &mut Random) -> Rows {
    let mut rows = Rows::default();
    let period = random.between(1, 12);
    let deadline = if random.once_in(2) { period } else { random.between(1, period) };
    for _ in 0..random.between(2, 15) {
        rows.task(period, deadline);
    }
    let receiver_period = period * random.pick(&[1, 1, 2, 3]);
    let receiver_deadline = random.between(1, receiver_period);
    rows.task(receiver_period, receiver_deadline);
    let receiver = rows.tasks.len() as u64 - 1;
    let all: Vec<u64> = (0..receiver).collect();
    rows.queue(receiver, &all);
    for _ in 0..random.below(3) {
        random_queue(&mut rows, random);
    }
    rows
}

/// All 16 tasks and all 8 queues.
fn full(random: &mut Random) -> Rows {
    let mut rows = Rows::default();
    for _ in 0..16 {
        let period = random.pick(&[2, 3, 4, 5, 6, 10]);
        let deadline = random.between(1, period);
        rows.task(period, deadline);
    }
    for receiver in 0..8 {
        random_queue(&mut rows, random);
        rows.queues[receiver].0 = random.below(16) as u8;
    }
    rows
}

/// A queue with exactly `messages` messages in its hyperperiod and few slots: the quick
/// sender has one in each tick, the slow sender one in the whole hyperperiod.
fn most_messages(random: &mut Random, messages: u64) -> Rows {
    let mut rows = Rows::default();
    let slow = messages - 1;
    let divisors: Vec<u64> = (1..=100).filter(|divisor| slow % divisor == 0).collect();
    let receiver = random.pick(&divisors);
    rows.task(1, 1);
    // A late deadline of the slow sender would ask for too many slots.
    let slow_deadline = random.between(1, 1_000);
    rows.task(slow, slow_deadline);
    let receiver_deadline = random.between(1, receiver);
    rows.task(receiver, receiver_deadline);
    rows.queue(2, &[0, 1]);
    if random.once_in(2) {
        rows.queue(0, &[2]);
    }
    rows
}

/// Queues whose least sizes add up to `slots`: a sender in each tick and a receiver R/D need
/// R + D slots.
fn slots_together(random: &mut Random, slots: u64) -> Rows {
    let mut rows = Rows::default();
    rows.task(1, 1);
    let mut left = slots;
    for queue in (1..=random.between(1, 4)).rev() {
        let size = if queue == 1 { left } else { random.between(2, left - 2 * queue) };
        left -= size;
        let deadline = random.between(1, size / 2);
        rows.task(size - deadline, deadline);
        let receiver = rows.tasks.len() as u64 - 1;
        rows.queue(receiver, &[0]);
    }
    rows
}

/// 4,649 * 2,151 = 9,999,999; or two long periods whose product is a little below.
fn most_hyperperiod(random: &mut Random) -> Rows {
    let mut rows = Rows::default();
    let (one, other) = random.pick(&[(4_649, 2_151), (2_151, 4_649), (3_162, 3_161), (60_000, 166), (60_000, 59_520)]);
    let (own, others) = (random.between(1, one), random.between(1, other));
    rows.task(one, own);
    rows.task(other, others);
    match random.below(3) {
        // With both as senders there are as many messages as the two periods together: over
        // the limit of messages for some.
        0 => rows.queue(1, &[0, 1]),
        1 => rows.queue(1, &[0]),
        _ => rows.queue(0, &[1]),
    }
    rows
}

pub const REFUSED_SHAPES: u64 = 12;

/// A table that breaks at least one rule.
pub fn refused_table(shape: u64, random: &mut Random) -> Rows {
    let mut rows = broken_table(shape, random);
    rows.draw_priorities(random);
    rows
}

fn broken_table(shape: u64, random: &mut Random) -> Rows {
    let mut rows = Rows::default();
    match shape {
        // Rule 1: nothing, only tasks, only queues.
        0 => match random.below(3) {
            0 => {}
            1 => rows.task(5, 5),
            _ => rows.queue(0, &[0]),
        },
        // Rule 2 in some row, perhaps in a later one too.
        1 => {
            rows = small(random);
            break_tasks(&mut rows, random);
        }
        // Rule 2 is tested before rule 3.
        2 => {
            rows = small(random);
            break_queues(&mut rows, random);
            break_tasks(&mut rows, random);
        }
        3 => {
            rows = small(random);
            break_queues(&mut rows, random);
        }
        // Rule 3 in a later queue is tested before rule 4 in an earlier one.
        4 => {
            rows = too_long(random);
            random_queue(&mut rows, random);
            let last = rows.queues.len() - 1;
            rows.queues[last] = random.pick(&[(0, 0), (200, 1), (0, 0x8000)]);
        }
        5 => rows = too_long(random),
        // Queue by queue: rule 5 in an earlier queue comes before rule 4 in a later one.
        6 => {
            rows = too_long(random);
            let tasks = rows.tasks.len() as u64;
            rows.task(1, 1);
            rows.task(4_097, 4_097);
            let place = random.below(rows.queues.len() as u64 + 1) as usize;
            rows.queues.insert(place, ((tasks + 1) as u8, 1 << tasks));
        }
        7 => rows = most_messages(random, 4_097),
        8 => rows = slots_together(random, 1_025),
        // Rule 6 in an earlier queue comes after rule 5 in a later one.
        9 => {
            rows = slots_together(random, 1_500);
            let tasks = rows.tasks.len() as u64;
            rows.task(5_000, 1);
            rows.queue(tasks, &[0]);
        }
        // 60,000 is taken and 60,001 is not.
        10 => {
            let period = random.pick(&[60_000, 60_001, 65_535]);
            let deadline = random.pick(&[1, 60_000, 60_001]);
            rows.task(period, deadline);
            rows.queue(0, &[0]);
            rows.queue(1, &[0]);
        }
        // Anything at all.
        _ => {
            let values = [0, 1, 2, 3, 10, 59_999, 60_000, 60_001, 65_535];
            for _ in 0..random.below(5) {
                let (period, deadline) = (random.pick(&values), random.pick(&values));
                rows.task(period, deadline);
            }
            for _ in 0..random.below(4) {
                rows.queues.push((random.below(6) as u8, random.any() as u16 & 0x803f));
            }
        }
    }
    rows
}

fn small(random: &mut Random) -> Rows {
    mixed(random, 6, 6, &[1, 2, 3, 4, 5, 6, 8], Deadlines::Any)
}

fn break_tasks(rows: &mut Rows, random: &mut Random) {
    for _ in 0..random.between(1, 2) {
        let row = random.below(rows.tasks.len() as u64) as usize;
        let period = rows.tasks[row].period;
        let beyond = period.saturating_add(1);
        let wrong = [(0, 0), (0, 1), (period, 0), (period, beyond), (60_001, 1), (65_535, 65_535)];
        let (period, deadline) = random.pick(&wrong);
        rows.tasks[row] = TaskRow { period, deadline, ..rows.tasks[row] };
    }
}

fn break_queues(rows: &mut Rows, random: &mut Random) {
    let tasks = rows.tasks.len() as u8;
    for _ in 0..random.between(1, 2) {
        let row = random.below(rows.queues.len() as u64) as usize;
        let (receiver, mask) = rows.queues[row];
        let stranger = mask | 1u16 << tasks;
        rows.queues[row] = random.pick(&[
            (tasks, mask),
            (16, mask),
            (255, mask),
            (receiver, 0),
            (receiver, stranger),
            (receiver, mask | 0x8000),
        ]);
    }
}

/// A good queue or none, then a queue over the limit of the hyperperiod: 35,461 * 282 is
/// 10,000,002.
fn too_long(random: &mut Random) -> Rows {
    let mut rows = Rows::default();
    let (one, other) = random.pick(&[(35_461, 282), (282, 35_461), (60_000, 59_999), (3_163, 3_167)]);
    rows.task(one, one);
    rows.task(other, 1);
    for _ in 0..random.below(3) {
        let row = random.below(2);
        rows.queue(row, &[row]);
    }
    match random.below(3) {
        0 => rows.queue(0, &[1]),
        1 => rows.queue(1, &[0, 1]),
        _ => rows.queue(0, &[0, 1]),
    }
    rows
}

/// More rows than there is room for: each row beyond 16 and 8 is answered as no frame, and
/// the table stays good.
pub fn crowded(random: &mut Random) -> Rows {
    let mut rows = full(random);
    for _ in 0..random.between(0, 2) {
        rows.task(1, 1);
    }
    for _ in 0..random.between(0, 2) {
        rows.queue(0, &[0]);
    }
    rows.draw_priorities(random);
    rows
}
