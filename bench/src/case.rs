//! A section held in a state block, and the operations that are measured on it.

use crate::naive::Tables;
use model::block::SIZE;
use model::frame::bytes;
use model::held::Held;
use model::service::{Lent, Memory};
use model::terms::{Answer, Fact, Mark, Record};
use panel::{Empty, Numbers};

/// What is measured.
#[derive(Clone, Copy, PartialEq)]
pub enum Operation {
    /// Both tables derived the naive way.
    Naive,
    /// A QUERY record inside the first mark: the block loaded and checked, both tables derived.
    Question,
    /// A PUT record that makes the section full.
    Put,
    /// That PUT, and a QUERY behind it.
    PutQuestion,
    /// A call with no byte left: the block loaded and checked, and nothing else.
    Load,
}

impl Operation {
    pub const ALL: [Operation; 5] = [
        Operation::Naive,
        Operation::Question,
        Operation::Put,
        Operation::PutQuestion,
        Operation::Load,
    ];

    pub fn name(self) -> &'static str {
        match self {
            Operation::Naive => "naive",
            Operation::Question => "question",
            Operation::Put => "put",
            Operation::PutQuestion => "put-question",
            Operation::Load => "load",
        }
    }

    pub fn from_name(name: &str) -> Option<Operation> {
        Operation::ALL.into_iter().find(|op| op.name() == name)
    }
}

/// The memory that all operations share.
pub struct Bench {
    pub naive: Tables,
    pub memory: Memory,
}

impl Bench {
    pub fn new() -> Bench {
        Bench {
            naive: Tables::new(),
            memory: Memory::zeros(Lent::EXACT),
        }
    }

    fn record(&mut self, input: &[u8]) -> Numbers {
        panel::record(&mut self.memory, &Lent::EXACT, input, Empty::Start).0
    }

    /// Handles one record that has to be done.
    fn done(&mut self, input: &[u8]) {
        assert_eq!(self.record(input), Answer::Done.numbers(), "{input:?}");
    }
}

pub struct Case {
    pub section: Held,
    full: Vec<u8>,
    short: Vec<u8>,
    put: Vec<u8>,
    question: Vec<u8>,
}

impl Case {
    /// A section whose block is `full`, and `short` without its first mark.
    fn with_blocks(section: Held, full: Vec<u8>, short: Vec<u8>) -> Case {
        let mark = section.marks[0];
        Case {
            put: bytes(&Record::Put(mark)),
            question: bytes(&Record::Query(mark.fact, middle(&mark))),
            section,
            full,
            short,
        }
    }

    /// The section put record by record into a block.
    pub fn load(section: Held, bench: &mut Bench) -> Case {
        for record in stream(&section) {
            bench.done(&bytes(&record));
        }
        let full = bench.memory.block.clone();
        bench.done(&bytes(&Record::Take(section.marks[0])));
        let short = bench.memory.block.clone();
        Case::with_blocks(section, full, short)
    }

    /// What the question is about.
    pub fn asked(&self) -> Fact {
        self.section.marks[0].fact
    }

    /// Both blocks as bytes, so that a later run need not load the section again.
    pub fn bytes(&self) -> Vec<u8> {
        [&self.full[..], &self.short].concat()
    }

    pub fn from_bytes(section: Held, bytes: &[u8]) -> Case {
        let (full, short) = bytes.split_at(SIZE);
        Case::with_blocks(section, full.to_vec(), short.to_vec())
    }

    /// Lays out the block that the operation starts from; this is not measured.
    pub fn prepare(&self, operation: Operation, bench: &mut Bench) {
        let block = match operation {
            Operation::Put | Operation::PutQuestion => &self.short,
            _ => &self.full,
        };
        bench.memory.block.copy_from_slice(block);
    }

    /// Does the operation and gives the last answer.
    pub fn run(&self, operation: Operation, bench: &mut Bench) -> Numbers {
        match operation {
            Operation::Naive => {
                bench.naive.derive(&self.section);
                Answer::Done.numbers()
            }
            Operation::Question => bench.record(&self.question),
            Operation::Put => bench.record(&self.put),
            Operation::PutQuestion => {
                bench.done(&self.put);
                bench.record(&self.question)
            }
            Operation::Load => bench.record(&[]),
        }
    }
}

fn middle(mark: &Mark) -> i64 {
    (i64::from(mark.top) + i64::from(mark.bottom)) / 2
}

/// The records that bring any block to the section.
fn stream(section: &Held) -> impl Iterator<Item = Record> + '_ {
    let rules = section.rules.iter().map(|&rule| Record::Rule(rule));
    let marks = section.marks.iter().map(|&mark| Record::Put(mark));
    [Record::Reset].into_iter().chain(rules).chain(marks)
}
