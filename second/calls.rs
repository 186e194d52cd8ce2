// The library's calls in plain text, on any plan value, state value and memory, damaged ones
// too, for test expectations.
//
// Input, one line each; empty lines and lines from # on are left out. No two commands, and no
// two fields of a command, have the same first letter: the program under test reads no more.
//   tasks P/D P/D ..     begins a new table with these tasks, all of priority 0; no queue yet
//   urgency V V ..       the priorities of the table's tasks, 0 for those left out (`plan` has
//                        the letter p)
//   queue R s s s        adds a queue: the receiver's row, then the senders' rows
//   plan                 prints `slots SIZE PLACE` for each queue, or `refused NO ROW`; the plan
//                        made becomes the current plan, all zeros where refused
//   alter FIELD V        alters the current plan: tasks, queues
//   alter FIELD INDEX V  period, deadline, urgency (16 each: the last is the priority), receiver,
//                        length, offset (8 each: size and place), sends (128, queue * 16 + task,
//                        V is 0 or 1)
//   force tick V         alters the current state: its tick
//   force FIELD INDEX V  sent (128, queue * 16 + task: the job after the last one sent, 0 for
//                        none), reading (8: the next number to read, 0 fresh)
//   memory LENGTH BYTE   new memory of LENGTH bytes (up to 40,000), all BYTE
//   init                 the call start: prints `ready`; the state is fresh after it
//   send Q I T LEN FIRST queue, task, tick, LEN payload bytes FIRST, FIRST + 1, .. mod 256:
//                        prints `stored NUMBER SLOT` (slot within its queue)
//   receive Q T          prints `message NUMBER SLOT` (slot from the start of memory),
//                        `gap NUMBER ROW` or `empty`; kept for view
//   keep NUMBER SLOT     the kept answer is this message
//   view LEN BYTE        the view of the kept answer, the filler being LEN bytes, all BYTE:
//                        prints `bytes ` and lower-case digits, or `none` for the empty part
//   digest               prints `state A memory LENGTH B`; see `digest` below
//   number q i k         queue, task, job: prints the message number
//   back q n             queue, message number: prints sender and job
//   window q m           queue, job of its receiver: prints first and last
// Every call and lookup may print `refused NO 0` instead: document 01 names no row there. At the
// beginning plan and state are all zeros, the memory has no byte, and the kept answer is
// `empty`. `tasks` and `queue` leave the current plan alone until `plan`. All numbers are
// decimal and up to 2^64 - 1. A lookup on a plan as planning made it is reckoned in two ways,
// here and in lookups.rs, and the program stops if they differ.

use crate::lookups;
use crate::lookups::{planned, read_number, read_queue, read_tasks};
use crate::model::{plan, Plan, Table};
use crate::model::{LAST_TICK, MOST_PERIOD, MOST_QUEUES, MOST_SLOTS, MOST_TASKS, PAYLOAD};
use std::cmp::Reverse;

const SLOT: usize = 32;
const MOST_MEMORY: u64 = 40_000;

/// Queues, tasks and senders as the library's plan holds them; any value in any field.
struct PlanValue {
    tasks: u64,
    queues: u64,
    period: [u64; MOST_TASKS],
    deadline: [u64; MOST_TASKS],
    priority: [u64; MOST_TASKS],
    receiver: [u64; MOST_QUEUES],
    /// By queue * 16 + task.
    sends: [bool; MOST_QUEUES * MOST_TASKS],
    size: [u64; MOST_QUEUES],
    place: [u64; MOST_QUEUES],
}

struct State {
    tick: u64,
    /// By queue * 16 + task: the job after the last one sent, 0 for none.
    sent: [u64; MOST_QUEUES * MOST_TASKS],
    /// By queue: the next number to read, 0 fresh.
    reading: [u64; MOST_QUEUES],
}

enum Answer {
    Message { number: u64, slot: u64 },
    Gap { number: u64, row: usize },
    Empty,
    Refused(u8),
}

struct Calls {
    table: Table,
    /// The current plan as planning made it; none once it is altered.
    made: Option<Plan>,
    plan: PlanValue,
    memory: Vec<u8>,
    state: State,
    kept: Answer,
}

/// The answers to a text, or what is wrong in it.
pub fn answers(text: &str) -> Result<String, String> {
    let mut output = String::new();
    let mut calls = Calls {
        table: Table::default(),
        made: None,
        plan: PlanValue::zeros(),
        memory: Vec::new(),
        state: State::fresh(),
        kept: Answer::Empty,
    };
    for (index, line) in text.lines().enumerate() {
        let line = line.split('#').next().unwrap_or("");
        let words: Vec<&str> = line.split_whitespace().collect();
        match calls.command(&words) {
            Ok(Some(text)) => output += &format!("{text}\n"),
            Ok(None) => {}
            Err(what) => return Err(format!("line {}: {what}", index + 1)),
        }
    }
    Ok(output)
}

impl Calls {
    fn command(&mut self, words: &[&str]) -> Result<Option<String>, String> {
        match words {
            [] => {}
            ["tasks", tasks @ ..] => self.table = Table { tasks: read_tasks(tasks)?, queues: Vec::new() },
            ["urgency", values @ ..] => {
                let priorities = read_numbers(values)?;
                for (row, task) in self.table.tasks.iter_mut().enumerate() {
                    task.priority = priorities.get(row).copied().unwrap_or(0);
                }
            }
            ["queue", rows @ ..] => self.table.queues.push(read_queue(rows)?),
            ["plan"] => {
                let made = plan(&self.table);
                let text = planned(&made);
                self.plan = made.as_ref().map_or(PlanValue::zeros(), PlanValue::of);
                self.made = made.ok();
                return Ok(Some(text));
            }
            ["force", field, values @ ..] => self.state.set(field, &read_numbers(values)?)?,
            ["alter", field, values @ ..] => {
                self.made = None;
                self.plan.set(field, &read_numbers(values)?)?
            }
            [name, values @ ..] => return self.call(name, &read_numbers(values)?),
        }
        Ok(None)
    }

    fn call(&mut self, name: &str, values: &[u64]) -> Result<Option<String>, String> {
        let answer = match (name, values) {
            ("memory", &[length @ 0..=MOST_MEMORY, byte @ 0..=255]) => {
                self.memory = vec![byte as u8; length as usize];
                return Ok(None);
            }
            ("keep", &[number, slot]) => {
                self.kept = Answer::Message { number, slot };
                return Ok(None);
            }
            ("init", &[]) => self.start(),
            ("send", &[queue, task, tick, length, first]) => self.send(queue, task, tick, length, first),
            ("receive", &[queue, tick]) => {
                self.kept = self.receive(queue, tick);
                Ok(self.kept.text())
            }
            ("view", &[length, byte @ 0..=255]) => Ok(self.view(length, byte as u8)),
            ("digest", &[]) => Ok(self.digest()),
            ("number", &[queue, task, job]) => {
                let answer = self.plan.number(queue, task, job);
                self.agree(answer, |plan| lookups::number(plan, queue, task, job))
            }
            ("back", &[queue, number]) => {
                let answer = self.plan.back(queue, number);
                self.agree(answer, |plan| lookups::back(plan, queue, number))
            }
            ("window", &[queue, job]) => {
                let answer = self.plan.window(queue, job);
                self.agree(answer, |plan| lookups::window(plan, queue, job))
            }
            _ => return Err(format!("no such command: {name} with {values:?}")),
        };
        Ok(Some(answer.unwrap_or_else(refused)))
    }

    /// A lookup's answer, held to the one by laps where the plan is as planning made it.
    fn agree(
        &self,
        answer: Result<String, u8>,
        by_laps: impl Fn(&Plan) -> Result<String, u8>,
    ) -> Result<String, u8> {
        if let Some(made) = &self.made {
            assert_eq!(answer, by_laps(made), "the two ways of a lookup differ");
        }
        answer
    }

    /// Refusals in the order 7, 8. A refused start gives the fresh state too.
    fn start(&mut self) -> Result<String, u8> {
        self.state = State::fresh();
        self.plan_and_memory()?;
        let bytes = self.plan.slots() * SLOT;
        for byte in &mut self.memory[..bytes] {
            *byte = 0;
        }
        Ok("ready".to_string())
    }

    /// Refusals in the order 7, 8, 14, 9, 11, 10, 12, 13.
    fn send(&mut self, queue: u64, task: u64, tick: u64, length: u64, first: u64) -> Result<String, u8> {
        self.plan_and_memory()?;
        if length != PAYLOAD as u64 {
            return Err(14);
        }
        let queue = self.plan.queue(queue)?;
        let row = self.plan.sender(queue, task)?;
        let job = tick / self.plan.period[row];
        let deadline = self.plan.job_deadline(row, job);
        if tick > LAST_TICK || deadline > LAST_TICK as u128 {
            return Err(11);
        }
        if tick < self.state.tick {
            return Err(10);
        }
        if tick as u128 >= deadline {
            return Err(12);
        }
        // The record is the job after the one sent: above this job where this one or a later
        // one is recorded.
        let record = flat(queue as u64, task);
        if self.state.sent[record] > job {
            return Err(13);
        }
        let number = self.plan.number_of(queue, row, job);
        let slot = number % self.plan.size[queue];
        let start = (self.plan.place[queue] + slot) as usize * SLOT;
        let mut bytes = number.to_be_bytes().to_vec();
        for place in 0..PAYLOAD as u64 {
            bytes.push(((first % 256 + place) % 256) as u8);
        }
        self.memory[start..start + SLOT].copy_from_slice(&bytes);
        self.state.sent[record] = job + 1;
        self.state.tick = tick;
        Ok(format!("stored {number} {slot}"))
    }

    fn receive(&mut self, queue: u64, tick: u64) -> Answer {
        self.received(queue, tick).unwrap_or_else(Answer::Refused)
    }

    /// Refusals in the order 7, 8, 9, 11, 10, 12.
    fn received(&mut self, queue: u64, tick: u64) -> Result<Answer, u8> {
        self.plan_and_memory()?;
        let queue = self.plan.queue(queue)?;
        if tick > LAST_TICK {
            return Err(11);
        }
        if tick < self.state.tick {
            return Err(10);
        }
        let receiver = self.plan.receiver[queue] as usize;
        let job = tick / self.plan.period[receiver];
        if tick as u128 >= self.plan.job_deadline(receiver, job) {
            return Err(12);
        }
        self.state.tick = tick;
        let (first, last) = self.plan.window_of(queue, job);
        let mut number = self.state.reading[queue];
        if number < first {
            number = first;
        }
        if number > last {
            return Ok(Answer::Empty);
        }
        self.state.reading[queue] = number + 1;
        let slot = self.plan.place[queue] + number % self.plan.size[queue];
        let start = slot as usize * SLOT;
        let held = self.memory[start..start + 8].iter().fold(0u64, |value, &byte| value * 256 + byte as u64);
        if held == number {
            return Ok(Answer::Message { number, slot });
        }
        let (row, _) = self.plan.message_of(queue, number).expect("a window ends at the last tick");
        Ok(Answer::Gap { number, row })
    }

    fn plan_and_memory(&self) -> Result<(), u8> {
        self.plan.test()?;
        if self.memory.len() < self.plan.slots() * SLOT {
            return Err(8);
        }
        Ok(())
    }

    /// The view knows the answer, the memory and the filler alone: no plan, no state.
    fn view(&self, length: u64, byte: u8) -> String {
        if length != PAYLOAD as u64 {
            return "none".to_string();
        }
        let part = match self.kept {
            Answer::Message { slot, .. } => {
                let end = (slot as u128 + 1) * SLOT as u128;
                if end > self.memory.len() as u128 {
                    return "none".to_string();
                }
                let end = end as usize;
                self.memory[end - PAYLOAD..end].to_vec()
            }
            Answer::Gap { .. } => vec![byte; PAYLOAD],
            Answer::Empty | Answer::Refused(_) => return "none".to_string(),
        };
        let digits: String = part.iter().map(|byte| format!("{byte:02x}")).collect();
        format!("bytes {digits}")
    }

    /// State values in the order tick, sent, reading; memory byte by byte.
    fn digest(&self) -> String {
        let mut values = vec![self.state.tick];
        values.extend(self.state.sent);
        values.extend(self.state.reading);
        let bytes: Vec<u64> = self.memory.iter().map(|&byte| byte as u64).collect();
        format!("state {} memory {} {}", digest(&values), bytes.len(), digest(&bytes))
    }
}

/// The sum of (index + 1) * (value mod 1,000,003), modulo 1,000,003; the index from 0.
fn digest(values: &[u64]) -> u64 {
    const MODULUS: u64 = 1_000_003;
    let mut sum = 0;
    for (index, value) in values.iter().enumerate() {
        sum = (sum + (index as u64 + 1) * (value % MODULUS)) % MODULUS;
    }
    sum
}

fn refused(rule: u8) -> String {
    format!("refused {rule} 0")
}

fn flat(queue: u64, task: u64) -> usize {
    queue as usize * MOST_TASKS + task as usize
}

fn read_numbers(words: &[&str]) -> Result<Vec<u64>, String> {
    words.iter().map(|word| read_number(word)).collect()
}

impl State {
    fn fresh() -> State {
        State { tick: 0, sent: [0; MOST_QUEUES * MOST_TASKS], reading: [0; MOST_QUEUES] }
    }

    fn set(&mut self, field: &str, values: &[u64]) -> Result<(), String> {
        match (field, values) {
            ("tick", &[value]) => self.tick = value,
            ("sent", &[place @ 0..=127, value]) => self.sent[place as usize] = value,
            ("reading", &[queue @ 0..=7, value]) => self.reading[queue as usize] = value,
            _ => return Err(format!("no such field: {field} with {values:?}")),
        }
        Ok(())
    }
}

impl Answer {
    fn text(&self) -> String {
        match self {
            Answer::Message { number, slot } => format!("message {number} {slot}"),
            Answer::Gap { number, row } => format!("gap {number} {row}"),
            Answer::Empty => "empty".to_string(),
            Answer::Refused(rule) => refused(*rule),
        }
    }
}

impl PlanValue {
    fn zeros() -> PlanValue {
        PlanValue {
            tasks: 0,
            queues: 0,
            period: [0; MOST_TASKS],
            deadline: [0; MOST_TASKS],
            priority: [0; MOST_TASKS],
            receiver: [0; MOST_QUEUES],
            sends: [false; MOST_QUEUES * MOST_TASKS],
            size: [0; MOST_QUEUES],
            place: [0; MOST_QUEUES],
        }
    }

    fn of(plan: &Plan) -> PlanValue {
        let mut value = PlanValue::zeros();
        value.tasks = plan.table.tasks.len() as u64;
        value.queues = plan.queues.len() as u64;
        for (row, task) in plan.table.tasks.iter().enumerate() {
            value.period[row] = task.period;
            value.deadline[row] = task.deadline;
            value.priority[row] = task.priority;
        }
        for (row, queue) in plan.table.queues.iter().enumerate() {
            value.receiver[row] = queue.receiver as u64;
            for &sender in &queue.senders {
                value.sends[flat(row as u64, sender as u64)] = true;
            }
            value.size[row] = plan.queues[row].size;
            value.place[row] = plan.queues[row].place;
        }
        value
    }

    fn set(&mut self, field: &str, values: &[u64]) -> Result<(), String> {
        match (field, values) {
            ("tasks", &[value]) => self.tasks = value,
            ("queues", &[value]) => self.queues = value,
            ("period", &[row @ 0..=15, value]) => self.period[row as usize] = value,
            ("deadline", &[row @ 0..=15, value]) => self.deadline[row as usize] = value,
            ("urgency", &[row @ 0..=15, value]) => self.priority[row as usize] = value,
            ("receiver", &[queue @ 0..=7, value]) => self.receiver[queue as usize] = value,
            ("sends", &[place @ 0..=127, value @ 0..=1]) => self.sends[place as usize] = value == 1,
            ("length", &[queue @ 0..=7, value]) => self.size[queue as usize] = value,
            ("offset", &[queue @ 0..=7, value]) => self.place[queue as usize] = value,
            _ => return Err(format!("no such field: {field} with {values:?}")),
        }
        Ok(())
    }

    /// Rule 7, as far as its line goes: 1 to 3, sizes, places and total of the counted queues.
    /// It asks for neither 4 nor 5 nor fit, nor for zeros beyond the counts, and nothing of
    /// priorities.
    fn test(&self) -> Result<(), u8> {
        if self.tasks < 1 || self.tasks > MOST_TASKS as u64 {
            return Err(7);
        }
        if self.queues < 1 || self.queues > MOST_QUEUES as u64 {
            return Err(7);
        }
        for row in 0..self.tasks as usize {
            if self.period[row] < 1 || self.period[row] > MOST_PERIOD {
                return Err(7);
            }
            if self.deadline[row] < 1 || self.deadline[row] > self.period[row] {
                return Err(7);
            }
        }
        for queue in 0..self.queues as usize {
            let senders = self.senders(queue);
            // All 16 columns count here: a yes for a task beyond the count is no task.
            let stranger = senders.iter().any(|&row| row as u64 >= self.tasks);
            if self.receiver[queue] >= self.tasks || senders.is_empty() || stranger {
                return Err(7);
            }
        }
        let mut total = 0;
        for queue in 0..self.queues as usize {
            if self.size[queue] < 1 || self.size[queue] > MOST_SLOTS || self.place[queue] != total {
                return Err(7);
            }
            total += self.size[queue];
        }
        if total > MOST_SLOTS {
            return Err(7);
        }
        Ok(())
    }

    /// All slots together, of a plan that passed rule 7.
    fn slots(&self) -> usize {
        self.size[..self.queues as usize].iter().sum::<u64>() as usize
    }

    /// Rule 9 for the queue.
    fn queue(&self, queue: u64) -> Result<usize, u8> {
        if queue >= self.queues {
            return Err(9);
        }
        Ok(queue as usize)
    }

    /// Rule 9 for the task.
    fn sender(&self, queue: usize, task: u64) -> Result<usize, u8> {
        if task >= self.tasks || !self.sends[flat(queue as u64, task)] {
            return Err(9);
        }
        Ok(task as usize)
    }

    fn senders(&self, queue: usize) -> Vec<usize> {
        (0..MOST_TASKS).filter(|&row| self.sends[flat(queue as u64, row as u64)]).collect()
    }

    /// The senders as their messages go at one deadline: in each turn the first row of those
    /// with the highest priority that is left.
    fn senders_in_turn(&self, queue: usize) -> Vec<usize> {
        let mut left = self.senders(queue);
        let mut in_turn = Vec::new();
        while let Some(highest) = left.iter().map(|&row| self.priority[row]).max() {
            let place = left.iter().position(|&row| self.priority[row] == highest);
            in_turn.push(left.remove(place.expect("one of them has it")));
        }
        in_turn
    }

    /// Jobs go up to 2^64 - 1, so this needs more than 64 bits.
    fn job_deadline(&self, row: usize, job: u64) -> u128 {
        job as u128 * self.period[row] as u128 + self.deadline[row] as u128
    }

    /// The lookups' refusals come in the order 7, 9, then 11 or 15.
    fn number(&self, queue: u64, task: u64, job: u64) -> Result<String, u8> {
        self.test()?;
        let queue = self.queue(queue)?;
        let row = self.sender(queue, task)?;
        if self.job_deadline(row, job) > LAST_TICK as u128 {
            return Err(11);
        }
        Ok(self.number_of(queue, row, job).to_string())
    }

    fn back(&self, queue: u64, number: u64) -> Result<String, u8> {
        self.test()?;
        let queue = self.queue(queue)?;
        if number == 0 {
            return Err(15);
        }
        let (row, job) = self.message_of(queue, number).ok_or(15u8)?;
        Ok(format!("{row} {job}"))
    }

    fn window(&self, queue: u64, job: u64) -> Result<String, u8> {
        self.test()?;
        let queue = self.queue(queue)?;
        let period = self.period[self.receiver[queue] as usize];
        if job as u128 * period as u128 > LAST_TICK as u128 {
            return Err(11);
        }
        let (first, last) = self.window_of(queue, job);
        Ok(format!("{first} {last}"))
    }
}

// Numbers. Such a plan may have no hyperperiod within any limit, so nothing here leans on one.
// Up to tick LISTED every message is listed, sorted and counted. Later ticks, up to 10^12,
// cannot be listed. There the jobs of each sender are counted: deadlines of one task rise with
// the job, so those up to a tick are the jobs 0, 1, .. up to some last one, and how many these
// are is found by trying, in steps of 2^40, 2^39, .. 1 jobs, whether the last job of the step
// still has its deadline in time. No formula with a quotient is used. Wherever listing is
// possible both ways are taken, and the program stops if they differ.

const LISTED: u64 = 20_000;
const GREATEST_STEP: u64 = 1 << 40;

impl PlanValue {
    /// Deadline, row and job of every message with a deadline up to this tick, in order.
    fn listed_until(&self, queue: usize, tick: u64) -> Vec<(u64, usize, u64)> {
        let mut list = Vec::new();
        for row in self.senders(queue) {
            let mut job = 0;
            let mut deadline = self.deadline[row];
            while deadline <= tick {
                list.push((deadline, row, job));
                job += 1;
                deadline += self.period[row];
            }
        }
        list.sort_by_key(|&(deadline, row, _)| (deadline, Reverse(self.priority[row]), row));
        list
    }

    /// How many jobs of the task have their deadline at this tick or before.
    fn jobs_until(&self, row: usize, tick: u64) -> u64 {
        let mut jobs = 0;
        let mut step = GREATEST_STEP;
        while step > 0 {
            // The jobs 0 .. jobs - 1 are in time; with this step the last one is:
            let last = jobs + step - 1;
            if self.job_deadline(row, last) <= tick as u128 {
                jobs += step;
            }
            step /= 2;
        }
        jobs
    }

    /// How many messages of the queue have their deadline at this tick or before.
    fn messages_until(&self, queue: usize, tick: u64) -> u64 {
        let counted = self.senders(queue).iter().map(|&row| self.jobs_until(row, tick)).sum();
        if tick <= LISTED {
            assert_eq!(self.listed_until(queue, tick).len() as u64, counted, "counting is not listing");
        }
        counted
    }

    /// The senders with a deadline exactly at this tick, in turn, each with its job.
    fn at(&self, queue: usize, tick: u64) -> Vec<(usize, u64)> {
        let mut list = Vec::new();
        for row in self.senders_in_turn(queue) {
            let before = self.jobs_until(row, tick - 1);
            if self.jobs_until(row, tick) > before {
                list.push((row, before));
            }
        }
        list
    }

    /// The messages strictly before, plus one. The job's deadline is at most the last tick.
    fn number_of(&self, queue: usize, row: usize, job: u64) -> u64 {
        let deadline = self.job_deadline(row, job) as u64;
        let before = self.messages_until(queue, deadline - 1);
        let place = self.at(queue, deadline).iter().position(|&message| message == (row, job));
        let number = before + place.expect("the job has its deadline there") as u64 + 1;
        if deadline <= LISTED {
            let list = self.listed_until(queue, deadline);
            assert_eq!(list[number as usize - 1], (deadline, row, job), "numbering is not listing");
        }
        number
    }

    /// Row and job of the message with this number (from 1); none if its deadline is past the
    /// last tick.
    fn message_of(&self, queue: usize, number: u64) -> Option<(usize, u64)> {
        // The last tick at which there are still fewer messages than this.
        let mut tick = 0;
        let mut step = GREATEST_STEP;
        while step > 0 {
            if tick + step <= LAST_TICK && self.messages_until(queue, tick + step) < number {
                tick += step;
            }
            step /= 2;
        }
        let deadline = tick + 1;
        if deadline > LAST_TICK {
            return None;
        }
        let place = number - self.messages_until(queue, tick) - 1;
        let (row, job) = self.at(queue, deadline)[place as usize];
        if deadline <= LISTED {
            let list = self.listed_until(queue, deadline);
            assert_eq!(list[number as usize - 1], (deadline, row, job), "the way back is not listing");
        }
        Some((row, job))
    }

    /// First and last number of the window ((m-1)R, mR] of the receiver's job m; its release
    /// is at most the last tick.
    fn window_of(&self, queue: usize, job: u64) -> (u64, u64) {
        if job == 0 {
            return (1, 0);
        }
        let period = self.period[self.receiver[queue] as usize];
        let before = self.messages_until(queue, (job - 1) * period);
        (before + 1, self.messages_until(queue, job * period))
    }
}
