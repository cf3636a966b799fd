//! What the program prints for an input.

use crate::frame::bytes;
use crate::service::{record, Lent, Memory};
use crate::terms::{Answer, Record};

pub const MAX_INPUT: usize = 65_536;

pub fn listing(input: &[u8]) -> String {
    if input.len() > MAX_INPUT {
        return "input too long\n".to_string();
    }
    let mut memory = Memory::zeros(Lent::EXACT);
    let (mut lines, mut at) = (String::new(), 0);
    for number in 1.. {
        let (answer, used) = record(&mut memory, &Lent::EXACT, &input[at..]);
        at += used as usize;
        if answer == Answer::End {
            break;
        }
        lines += &format!("{number} {answer}{}\n", span_text(&memory, answer));
        // A broken frame uses all that is left, so the next call would be the end. A block that no
        // records lead to uses nothing, so the same call would come again.
        if answer == Answer::Refused(3) || used == 0 {
            break;
        }
    }
    lines
}

/// The lines without their numbers, for tests.
pub fn answers(input: &[u8]) -> Vec<String> {
    let lines = listing(input);
    let bare = lines.lines().map(|line| line.split_once(' '));
    bare.flatten().map(|(_, said)| said.to_string()).collect()
}

/// The same for records, with marks by the old kinds where both ends are equal.
pub fn answers_to(records: &[Record]) -> Vec<String> {
    answers(&records.iter().flat_map(bytes).collect::<Vec<u8>>())
}

pub fn last_answer(records: &[Record]) -> String {
    answers_to(records).pop().expect("a record")
}

fn span_text(memory: &Memory, answer: Answer) -> String {
    let Answer::Spans(count) = answer else {
        return String::new();
    };
    let pairs = memory.spans.chunks(2).take(count as usize);
    pairs
        .map(|pair| format!(" {}:{}", end(pair[0]), end(pair[1])))
        .collect()
}

fn end(depth: i32) -> String {
    match depth {
        i32::MIN | i32::MAX => "*".to_string(),
        finite => finite.to_string(),
    }
}
