// The model of document 01 with the order of request b, by listing: tables, planning, numbers,
// windows.
//
// All sender jobs of one hyperperiod are listed, sorted by deadline, priority and row, and
// counted. Nothing here uses the equations of the source document.
//
// The one shortcut is the hyperperiod shift. A job k with k * P < H has its deadline in
// 1 ..= H, because 1 <= D <= P and P divides H. So the jobs of the next lap are the jobs of
// this lap, each H ticks later, in the same order. The receiver's period divides H too, so
// its releases and the ticks of outdating move by H as well. Ticks go up to 10^12 and
// cannot be listed one by one; `plan_queue` lists three laps outright and stops the program
// if the second and the third are not the first one shifted.

use std::cmp::Reverse;

pub const MOST_TASKS: usize = 16;
pub const MOST_QUEUES: usize = 8;
pub const MOST_PERIOD: u64 = 60_000;
pub const MOST_HYPERPERIOD: u64 = 10_000_000;
pub const MOST_MESSAGES: u64 = 4_096;
pub const MOST_SLOTS: u64 = 1_024;
pub const LAST_TICK: u64 = 1_000_000_000_000;
pub const PAYLOAD: usize = 24;

#[derive(Clone, Copy)]
pub struct Task {
    pub period: u64,
    pub deadline: u64,
    pub priority: u64,
}

/// Senders are task rows in rising order.
#[derive(Clone)]
pub struct Queue {
    pub receiver: usize,
    pub senders: Vec<usize>,
}

#[derive(Clone, Default)]
pub struct Table {
    pub tasks: Vec<Task>,
    pub queues: Vec<Queue>,
}

/// A refusal by number; `row` is 0 where document 01 names none.
#[derive(Clone, Copy, PartialEq, Debug)]
pub struct Refusal {
    pub rule: u8,
    pub row: u8,
}

pub fn refuse<T>(rule: u8, row: usize) -> Result<T, Refusal> {
    Err(Refusal { rule, row: row as u8 })
}

/// One job of a sender. Its place in the sorted list is its message number.
#[derive(Clone, Copy, PartialEq, Debug)]
pub struct Message {
    pub deadline: u64,
    pub row: usize,
    pub job: u64,
    pub release: u64,
}

pub struct PlannedQueue {
    pub receiver: Task,
    pub hyperperiod: u64,
    /// The sorted messages of the first hyperperiod.
    pub lap: Vec<Message>,
    pub size: u64,
    pub place: u64,
}

pub struct Plan {
    pub table: Table,
    pub queues: Vec<PlannedQueue>,
}

/// Rules 1 to 6 in document 01's order, then the least sizes and their running places.
pub fn plan(table: &Table) -> Result<Plan, Refusal> {
    let tasks = table.tasks.len();
    if tasks < 1 || tasks > MOST_TASKS || table.queues.is_empty() || table.queues.len() > MOST_QUEUES {
        return refuse(1, 0);
    }
    for (row, task) in table.tasks.iter().enumerate() {
        let period_good = 1 <= task.period && task.period <= MOST_PERIOD;
        let deadline_good = 1 <= task.deadline && task.deadline <= task.period;
        if !period_good || !deadline_good {
            return refuse(2, row);
        }
    }
    for (row, queue) in table.queues.iter().enumerate() {
        let strangers = queue.senders.iter().any(|&sender| sender >= tasks);
        if queue.receiver >= tasks || strangers || queue.senders.is_empty() {
            return refuse(3, row);
        }
    }
    for (row, queue) in table.queues.iter().enumerate() {
        let Some(hyperperiod) = hyperperiod(table, queue) else {
            return refuse(4, row);
        };
        let messages: u64 = queue.senders.iter().map(|&s| hyperperiod / table.tasks[s].period).sum();
        if messages > MOST_MESSAGES {
            return refuse(5, row);
        }
    }
    let mut queues = Vec::new();
    let mut place = 0;
    for queue in &table.queues {
        // No fit size up to the limit: this queue alone is over the limit of all together.
        let Some(planned) = plan_queue(table, queue, place) else {
            return refuse(6, 0);
        };
        place += planned.size;
        queues.push(planned);
    }
    if place > MOST_SLOTS {
        return refuse(6, 0);
    }
    Ok(Plan { table: table.clone(), queues })
}

/// The least number that every period of the queue divides, found by trying the multiples of
/// the greatest period in turn; none if it is over the limit.
fn hyperperiod(table: &Table, queue: &Queue) -> Option<u64> {
    let mut periods: Vec<u64> = queue.senders.iter().map(|&s| table.tasks[s].period).collect();
    periods.push(table.tasks[queue.receiver].period);
    let greatest = *periods.iter().max().unwrap();
    let mut multiple = greatest;
    while multiple <= MOST_HYPERPERIOD {
        if periods.iter().all(|&period| multiple % period == 0) {
            return Some(multiple);
        }
        multiple += greatest;
    }
    None
}

/// Every sender job released before `end`, sorted by deadline; of equal deadlines "the higher
/// goes first, and equal priorities go by row".
fn listed_until(table: &Table, queue: &Queue, end: u64) -> Vec<Message> {
    let mut list = Vec::new();
    for &row in &queue.senders {
        let task = table.tasks[row];
        let mut job = 0;
        while job * task.period < end {
            let release = job * task.period;
            list.push(Message { deadline: release + task.deadline, row, job, release });
            job += 1;
        }
    }
    list.sort_by_key(|message| (message.deadline, Reverse(table.tasks[message.row].priority), message.row));
    list
}

fn plan_queue(table: &Table, queue: &Queue, place: u64) -> Option<PlannedQueue> {
    let hyperperiod = hyperperiod(table, queue).expect("rule 4 was tested before");
    let mut planned = PlannedQueue {
        receiver: table.tasks[queue.receiver],
        hyperperiod,
        lap: listed_until(table, queue, hyperperiod),
        size: 0,
        place,
    };
    for (index, outright) in listed_until(table, queue, 3 * hyperperiod).iter().enumerate() {
        let shifted = planned.message(table, index as u64 + 1);
        assert_eq!(*outright, shifted, "the hyperperiod shift does not hold");
    }
    for size in 1..=MOST_SLOTS {
        if planned.is_fit(table, size) {
            planned.size = size;
            return Some(planned);
        }
    }
    None
}

impl PlannedQueue {
    fn messages_in_lap(&self) -> u64 {
        self.lap.len() as u64
    }

    /// The message with this number (from 1): the entry of the list, moved by whole laps.
    pub fn message(&self, table: &Table, number: u64) -> Message {
        let laps = (number - 1) / self.messages_in_lap();
        let listed = self.lap[((number - 1) % self.messages_in_lap()) as usize];
        let jobs_in_lap = self.hyperperiod / table.tasks[listed.row].period;
        Message {
            deadline: listed.deadline + laps * self.hyperperiod,
            row: listed.row,
            job: listed.job + laps * jobs_in_lap,
            release: listed.release + laps * self.hyperperiod,
        }
    }

    /// "L is fit if for every n >= 1 the job sending n + L is released no earlier than the
    /// tick at which n is outdated." One lap of n is every n: a lap later, both sides of the
    /// comparison are H ticks later.
    fn is_fit(&self, table: &Table, size: u64) -> bool {
        (1..=self.messages_in_lap()).all(|n| {
            let outdated = self.outdated_at(self.message(table, n).deadline);
            self.message(table, n + size).release >= outdated
        })
    }

    /// A message is delivered at the receiver's first release at or after its deadline, and
    /// outdated from that job's deadline on.
    fn outdated_at(&self, deadline: u64) -> u64 {
        let receiver_job = deadline.div_ceil(self.receiver.period);
        receiver_job * self.receiver.period + self.receiver.deadline
    }

    /// How many messages have their deadline at this tick or before.
    fn count_until(&self, tick: u64) -> u64 {
        let laps = tick / self.hyperperiod;
        let rest = tick % self.hyperperiod;
        let listed = self.lap.iter().filter(|message| message.deadline <= rest).count() as u64;
        laps * self.messages_in_lap() + listed
    }

    /// The messages strictly before, plus one: the place in the sorted list, from 1.
    pub fn number(&self, table: &Table, row: usize, job: u64) -> u64 {
        let jobs_in_lap = self.hyperperiod / table.tasks[row].period;
        let laps = job / jobs_in_lap;
        let in_lap = job % jobs_in_lap;
        let before = self.lap.iter().position(|m| m.row == row && m.job == in_lap).unwrap() as u64;
        laps * self.messages_in_lap() + before + 1
    }

    /// First and last number of the window ((m-1)R, mR] of the receiver's job m.
    pub fn window(&self, receiver_job: u64) -> (u64, u64) {
        if receiver_job == 0 {
            return (1, 0);
        }
        let period = self.receiver.period;
        let before = self.count_until((receiver_job - 1) * period);
        (before + 1, self.count_until(receiver_job * period))
    }
}
