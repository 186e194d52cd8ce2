// Planning and lookups on a planned table, for `second trial`: by the laps of model.rs.
// Refusals come in the order 9, then 11 or 15.

use crate::model::{Plan, PlannedQueue, Queue, Refusal, Task, LAST_TICK};

pub fn planned(made: &Result<Plan, Refusal>) -> String {
    match made {
        Ok(plan) => {
            let slots = |queue: &PlannedQueue| format!("slots {} {}", queue.size, queue.place);
            plan.queues.iter().map(slots).collect::<Vec<_>>().join("\n")
        }
        Err(refusal) => format!("refused {} {}", refusal.rule, refusal.row),
    }
}

fn queue_of(plan: &Plan, queue: u64) -> Result<(usize, &PlannedQueue), u8> {
    if queue >= plan.queues.len() as u64 {
        return Err(9);
    }
    Ok((queue as usize, &plan.queues[queue as usize]))
}

pub fn number(plan: &Plan, queue: u64, task: u64, job: u64) -> Result<String, u8> {
    let (place, planned) = queue_of(plan, queue)?;
    let senders = &plan.table.queues[place].senders;
    let Some(&row) = senders.iter().find(|&&row| row as u64 == task) else {
        return Err(9);
    };
    let Task { period, deadline, .. } = plan.table.tasks[row];
    // Jobs go up to 2^64 - 1, so the product needs more than 64 bits.
    if job as u128 * period as u128 + deadline as u128 > LAST_TICK as u128 {
        return Err(11);
    }
    Ok(planned.number(&plan.table, row, job).to_string())
}

pub fn back(plan: &Plan, queue: u64, number: u64) -> Result<String, u8> {
    let (_, planned) = queue_of(plan, queue)?;
    // A sender has at most one message in a tick, so no number above this has a deadline in
    // range; left out here because its deadline may not fit into 64 bits.
    let most = 16 * LAST_TICK;
    if number == 0 || number > most {
        return Err(15);
    }
    let message = planned.message(&plan.table, number);
    if message.deadline > LAST_TICK {
        return Err(15);
    }
    Ok(format!("{} {}", message.row, message.job))
}

pub fn window(plan: &Plan, queue: u64, job: u64) -> Result<String, u8> {
    let (_, planned) = queue_of(plan, queue)?;
    if job as u128 * planned.receiver.period as u128 > LAST_TICK as u128 {
        return Err(11);
    }
    let (first, last) = planned.window(job);
    Ok(format!("{first} {last}"))
}

pub fn read_tasks(words: &[&str]) -> Result<Vec<Task>, String> {
    words
        .iter()
        .map(|word| {
            let (period, deadline) = word.split_once('/').ok_or(format!("no task: {word}"))?;
            Ok(Task { period: read_number(period)?, deadline: read_number(deadline)?, priority: 0 })
        })
        .collect()
}

pub fn read_queue(words: &[&str]) -> Result<Queue, String> {
    let rows: Vec<u64> = words.iter().map(|word| read_number(word)).collect::<Result<_, _>>()?;
    let (receiver, senders) = rows.split_first().ok_or("a queue needs a receiver".to_string())?;
    let mut senders: Vec<usize> = senders.iter().map(|&row| row as usize).collect();
    senders.sort();
    senders.dedup();
    Ok(Queue { receiver: *receiver as usize, senders })
}

pub fn read_number(word: &str) -> Result<u64, String> {
    word.parse().map_err(|_| format!("no number: {word}"))
}
