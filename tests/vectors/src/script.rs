//! A script of steps for the test program, carried out on the model while it is written.

use model::frame::{bytes, wide_bytes};
use model::service::{record, spans_of, Lent, Memory};
use model::terms::{Answer, Record, REFUSAL_PLACES};

pub const WHOLE: Lent = Lent {
    block: 5_120,
    labels: 3_200,
    links: 50_000,
    spans: 256,
};

const CALL: u8 = 1;
const SPANS: u8 = 2;
const FILL: u8 = 3;
const POKE: u8 = 4;

const MODULUS: u64 = 4_294_967_291;

#[derive(Clone, Copy)]
pub enum Part {
    Block,
    Labels,
    Links,
    Spans,
}

pub struct Script {
    pub steps: Vec<u8>,
    pub lines: String,
    pub refusals: [u32; REFUSAL_PLACES],
    memory: Memory,
    calls: u32,
}

fn checksum(elements: impl Iterator<Item = u64>) -> u64 {
    elements.fold(0, |sum, element| (sum * 31 + element % MODULUS) % MODULUS)
}

fn lengths(lent: &Lent) -> Vec<u8> {
    let lengths = [lent.block, lent.labels, lent.links, lent.spans];
    let short = lengths.into_iter().map(|length| length as u16);
    short.flat_map(u16::to_le_bytes).collect()
}

impl Script {
    pub fn new() -> Script {
        Script {
            steps: Vec::new(),
            lines: String::new(),
            refusals: [0; REFUSAL_PLACES],
            memory: Memory::zeros(WHOLE),
            calls: 0,
        }
    }

    /// A record call on any bytes and lengths.
    pub fn call(&mut self, lent: &Lent, input: &[u8]) -> Answer {
        self.steps.push(CALL);
        self.steps.extend(lengths(lent));
        self.steps.extend((input.len() as u16).to_le_bytes());
        self.steps.extend(input);
        let (answer, used) = record(&mut self.memory, lent, input);
        self.line(answer, used);
        answer
    }

    /// A record call with everything lent.
    pub fn send(&mut self, input: &Record) -> Answer {
        self.call(&WHOLE, &bytes(input))
    }

    /// The same with a mark by the kinds 13 to 16.
    pub fn send_wide(&mut self, input: &Record) -> Answer {
        self.call(&WHOLE, &wide_bytes(input))
    }

    pub fn send_all(&mut self, inputs: impl IntoIterator<Item = Record>) {
        inputs.into_iter().for_each(|input| {
            self.send(&input);
        });
    }

    /// The call beside the records.
    pub fn spans(&mut self, lent: &Lent, item: u8, label: u8) {
        self.steps.push(SPANS);
        self.steps.extend(lengths(lent));
        self.steps.extend([item, label]);
        let answer = spans_of(&mut self.memory, lent, item.into(), label.into());
        self.line(answer, 0);
    }

    /// Element i becomes (i + seed) mod 256, or zero where the seed is.
    pub fn fill(&mut self, part: Part, seed: u8) {
        self.steps.extend([FILL, part as u8, seed]);
        let value = |i: usize| match seed {
            0 => 0,
            _ => (i + usize::from(seed)) as u8,
        };
        let memory = &mut self.memory;
        match part {
            Part::Block => memory.block = (0..WHOLE.block).map(value).collect(),
            Part::Labels => memory.labels = (0..WHOLE.labels).map(|i| value(i).into()).collect(),
            Part::Links => memory.links = (0..WHOLE.links).map(value).collect(),
            Part::Spans => memory.spans = (0..WHOLE.spans).map(|i| value(i).into()).collect(),
        }
    }

    pub fn poke(&mut self, place: usize, value: u8) {
        self.steps.push(POKE);
        self.steps.extend((place as u16).to_le_bytes());
        self.steps.push(value);
        self.memory.block[place] = value;
    }

    /// Pokes values, makes a call, and puts back what stood there.
    pub fn spoiled_all(&mut self, changes: &[(usize, u8)], input: &Record) {
        let kept: Vec<_> = changes
            .iter()
            .map(|&(place, _)| (place, self.memory.block[place]))
            .collect();
        self.poke_all(changes);
        self.send(input);
        self.poke_all(&kept);
    }

    /// The same with one place.
    pub fn spoiled(&mut self, place: usize, value: u8, input: &Record) {
        self.spoiled_all(&[(place, value)], input);
    }

    fn poke_all(&mut self, changes: &[(usize, u8)]) {
        changes
            .iter()
            .for_each(|&(place, value)| self.poke(place, value));
    }

    fn line(&mut self, answer: Answer, used: u64) {
        self.calls += 1;
        if let Answer::Refused(number) = answer {
            self.refusals[number as usize] += 1;
        }
        let memory = &self.memory;
        let block = checksum(memory.block.iter().map(|&byte| byte.into()));
        let labels = checksum(memory.labels.iter().copied());
        let links = checksum(memory.links.iter().map(|&byte| byte.into()));
        let spans = checksum(memory.spans.iter().map(|&end| u64::from(end as u32)));
        let sums = format!("block {block} labels {labels} links {links} spans {spans}");
        self.lines += &format!("{} {answer} used {used} {sums}\n", self.calls);
    }
}
