// Tables reckoned by hand: p1 to p12 of document 01, and what the priorities of request b change.

use crate::calls::answers;
use crate::console::Console;
use crate::model::{plan, Plan, Queue, Refusal, Table, Task};
use crate::tables::{by_falling_priority, SIZED_BY_PRIORITY};

/// The last row receives from all the others.
fn table(rows: &[(u64, u64, u64)]) -> Table {
    let tasks = rows.iter().map(|&(period, deadline, priority)| Task { period, deadline, priority });
    let receiver = rows.len() - 1;
    Table { tasks: tasks.collect(), queues: vec![Queue { receiver, senders: (0..receiver).collect() }] }
}

fn planned(rows: &[(u64, u64, u64)]) -> Plan {
    plan(&table(rows)).expect("it is planned")
}

fn size(rows: &[(u64, u64, u64)]) -> u64 {
    planned(rows).queues[0].size
}

fn number(plan: &Plan, row: usize, job: u64) -> u64 {
    plan.queues[0].number(&plan.table, row, job)
}

/// Row and job of the message with this number.
fn sent_by(plan: &Plan, number: u64) -> (usize, u64) {
    let message = plan.queues[0].message(&plan.table, number);
    (message.row, message.job)
}

#[test]
fn table_a_by_row() {
    // A line of five bytes has priority 0; equal priorities of any value go by row.
    for priority in [0, 1, 255] {
        let plan = planned(&[(5, 5, priority), (7, 7, priority), (10, 10, 0)]);
        assert_eq!(plan.queues[0].hyperperiod, 70);
        assert_eq!(plan.queues[0].lap.len(), 24);
        let p1_to_p6 = [(0, 0, 1), (1, 0, 2), (0, 1, 3), (0, 6, 11), (1, 4, 12), (1, 9, 24)];
        for (row, job, wanted) in p1_to_p6 {
            assert_eq!(number(&plan, row, job), wanted);
            assert_eq!(sent_by(&plan, wanted), (row, job));
        }
        assert_eq!(plan.queues[0].window(1), (1, 3));
        assert_eq!(plan.queues[0].window(4), (11, 13));
        assert_eq!(plan.queues[0].size, 9);
    }
}

#[test]
fn table_a_by_priority() {
    // Task 1 goes first where both have a deadline: at 35, messages 11 and 12, and at 70.
    for (of_0, of_1) in [(0, 1), (254, 255), (0, 255)] {
        let plan = planned(&[(5, 5, of_0), (7, 7, of_1), (10, 10, 0)]);
        assert_eq!(number(&plan, 1, 4), 11);
        assert_eq!(number(&plan, 0, 6), 12);
        assert_eq!(number(&plan, 1, 9), 23);
        assert_eq!(number(&plan, 0, 13), 24);
        assert_eq!(sent_by(&plan, 11), (1, 4));
        assert_eq!(sent_by(&plan, 12), (0, 6));
        // A lap later.
        assert_eq!(number(&plan, 1, 14), 35);
        assert_eq!(number(&plan, 0, 20), 36);
        // Other deadlines stay where they were, and so do windows and size.
        for (row, job, wanted) in [(0, 0, 1), (1, 0, 2), (0, 1, 3), (1, 5, 14), (0, 14, 25)] {
            assert_eq!(number(&plan, row, job), wanted);
        }
        assert_eq!(plan.queues[0].window(4), (11, 13));
        assert_eq!(plan.queues[0].size, 9);
    }
    // The receiver's priority is of no account, nor is the higher one above.
    let plan = planned(&[(5, 5, 1), (7, 7, 0), (10, 10, 255)]);
    assert_eq!((number(&plan, 0, 6), number(&plan, 1, 4)), (11, 12));
}

#[test]
fn small_tables_of_document_01() {
    assert_eq!(size(&[(5, 5, 0), (7, 7, 0), (10, 8, 0)]), 8);
    assert_eq!(size(&[(10, 10, 0), (10, 10, 0)]), 2);
    assert_eq!(size(&[(10, 1, 0), (2, 1, 0)]), 1);
    // One sender goes before nobody.
    assert_eq!(size(&[(10, 10, 3), (10, 10, 200)]), 2);
}

#[test]
fn five_alike() {
    // Priorities 2, 9, 2, 9, 0: rows 1, 3, 0, 2, 4 in each period.
    let plan = planned(&[(10, 4, 2), (10, 4, 9), (10, 4, 2), (10, 4, 9), (10, 4, 0), (10, 10, 5)]);
    for (place, &row) in [1, 3, 0, 2, 4].iter().enumerate() {
        assert_eq!(number(&plan, row, 0), place as u64 + 1);
        assert_eq!(number(&plan, row, 7), place as u64 + 36);
        assert_eq!(sent_by(&plan, place as u64 + 36), (row, 7));
    }
}

#[test]
fn a_task_that_sends_to_itself() {
    // Its priority counts as a sender's.
    let numbers = |of_0: u64, of_1: u64| {
        let mut table = table(&[(10, 10, of_0), (10, 10, of_1)]);
        table.queues[0].senders = vec![0, 1];
        let plan = plan(&table).expect("it is planned");
        (number(&plan, 0, 0), number(&plan, 1, 0))
    };
    assert_eq!(numbers(0, 0), (1, 2));
    assert_eq!(numbers(0, 1), (2, 1));
    assert_eq!(numbers(1, 0), (1, 2));
}

/// Tasks 4/4 and 2/2 send to 2/2. Task 0's job 1 is released at 4 with its deadline at 8, and task
/// 1's job 3 at 6 with the same. As number 5 task 0's message finds message 1 outdated at 4: 4
/// slots. As number 6 it would take message 2's place, which is wanted until 6: 5 slots.
#[test]
fn a_size_that_priorities_change() {
    assert_eq!(size(&[(4, 4, 1), (2, 2, 0), (2, 2, 0)]), 4);
    assert_eq!(size(&[(4, 4, 0), (2, 2, 1), (2, 2, 0)]), 5);
    // Equal priorities go by row: 4 as the tables stand, 5 with the rows exchanged.
    assert_eq!(size(&[(4, 4, 7), (2, 2, 7), (2, 2, 0)]), 4);
    assert_eq!(size(&[(2, 2, 7), (4, 4, 7), (2, 2, 0)]), 5);
    assert_eq!(size(&[(2, 2, 7), (4, 4, 8), (2, 2, 0)]), 4);
}

#[test]
fn sizes_of_the_generated_tables() {
    let planned = |exchanged: bool| {
        SIZED_BY_PRIORITY.map(|tasks| {
            let table = by_falling_priority(tasks, exchanged).to_table();
            plan(&table).map(|plan| plan.queues[0].size)
        })
    };
    assert_eq!(planned(false).map(Result::ok), [Some(4), Some(4), Some(8), Some(1_024)]);
    assert_eq!(planned(true).map(Result::ok), [Some(5), Some(5), Some(11), None]);
    assert_eq!(planned(true)[3].as_ref().err(), Some(&Refusal { rule: 6, row: 0 }));
}

/// What the console answers to these lines, those without an answer left out.
fn console(lines: &str) -> Vec<String> {
    let mut console = Console::default();
    lines.split_whitespace().filter_map(|line| console.answer(line.as_bytes())).collect()
}

#[test]
fn line_01_of_five_bytes_or_six() {
    let zeros = "0".repeat(48);
    let numbers = |first: &str, second: &str| {
        let sends = format!("0400000000000000{zeros} 0400010000000000{zeros} 0500000000000a");
        let answers = console(&format!("{first} {second} 01000a000a 02020003 03 {sends}"));
        assert_eq!(answers[0], "810004");
        assert!(answers[3].starts_with("85000000000001"));
        (answers[1].clone(), answers[2].clone())
    };
    let one = "840000000000010001".to_string();
    let two = "840000000000020002".to_string();
    let row_0_first = (one.clone(), two.clone());
    let row_1_first = (two, one);
    assert_eq!(numbers("01000a000a", "01000a000a"), row_0_first);
    assert_eq!(numbers("01000a000a00", "01000a000a"), row_0_first);
    assert_eq!(numbers("01000a000a", "01000a000a01"), row_1_first);
    assert_eq!(numbers("01000a000a01", "01000a000a"), row_0_first);
    assert_eq!(numbers("01000a000a7f", "01000a000a80"), row_1_first);
    assert_eq!(numbers("01000a000afe", "01000a000aff"), row_1_first);
    assert_eq!(numbers("01000a000aff", "01000a000aff"), row_0_first);
}

#[test]
fn line_01_of_other_lengths() {
    let no_frame = ["7ff000"];
    for line in ["01", "01000a", "01000a00", "01000a000", "01000a000a0", "01000a000a0000", "01000a000a0g"] {
        assert_eq!(console(line), no_frame, "{line}");
    }
    assert_eq!(console("01000a000aA0"), no_frame);
    assert!(console("01000a000aff 01000a000a").is_empty());
    // A row beyond 16, and one behind an accepted 03.
    assert_eq!(console(&"01000a000a01 ".repeat(17)), no_frame);
    assert_eq!(console("01000a000a01 02000001 03 01000a000a01"), ["810002", "7ff000"]);
    // A gap is named by the same order.
    let gaps = console("01000a000a 01000a000a01 01000a000a 02020003 03 0500000000000a 0500000000000a");
    assert_eq!(gaps, ["810004", "8600000000000101", "8600000000000200"]);
}

#[test]
fn calls_on_any_values() {
    let table_a = "tasks 5/5 7/7 10/10\nurgency 0 1\nqueue 2 0 1\nplan\n";
    let lookups = "number 0 1 4\nnumber 0 0 6\nback 0 11\nback 0 12\nwindow 0 4\n";
    let answer = |text: &str| answers(text).expect("a good text");
    assert_eq!(answer(&format!("{table_a}{lookups}")), "slots 9 0\n11\n12\n1 4\n0 6\n11 13\n");
    // An altered plan is read as it stands; 7 asks nothing of priorities.
    let by_row = "slots 9 0\n12\n11\n0 6\n1 4\n11 13\n";
    assert_eq!(answer(&format!("{table_a}alter urgency 1 0\n{lookups}")), by_row);
    assert_eq!(answer(&format!("{table_a}alter urgency 0 255\n{lookups}")), by_row);
    assert_eq!(answer(&format!("{table_a}alter urgency 0 18446744073709551615\n{lookups}")), by_row);
    // A new table begins with priority 0 for all.
    assert_eq!(
        answer(&format!("{table_a}{}{lookups}", table_a.replace("urgency 0 1\n", ""))),
        format!("slots 9 0\n{by_row}")
    );
}
