//! One stream of calls, made to the archive and to the model alike.

use crate::alike::Alike;
use crate::cases::Seen;
use crate::charge_seen::Billed;
use crate::damage::{damage, lengths, refill, spoil, with_rest, WHOLE};
use crate::joined_seen::{Asked, By};
use crate::plan::plan;
use crate::source::Source;
use crate::tally::Tally;
use dice::Dice;
use model::block::{decode, encode, read, SIZE};
use model::charge::Charge;
use model::frame;
use model::held::Held;
use model::moved::Move;
use model::service::{self, Lent, Memory};
use model::terms::{Answer, Fact, Record};
use panel::{Bill, Empty, Numbers};

#[derive(Debug)]
enum Call {
    Record(Vec<u8>),
    Spans(u32, u32),
    Charge(Bill),
}

/// What a call answered.
#[derive(Clone, Copy, PartialEq, Eq)]
enum Reply {
    Answer(Answer),
    Charge(Charge),
}

impl Call {
    /// Whether a length that is lent is 0.
    fn lends_nothing(&self, lent: &Lent) -> bool {
        // A charge is lent lines and no span buffer.
        let (own, spans) = match self {
            Call::Record(input) => (input.len(), lent.spans),
            Call::Spans(..) => (1, lent.spans),
            Call::Charge(bill) => (bill.lent, 1),
        };
        [lent.block, lent.labels, lent.links, spans, own].contains(&0)
    }

    /// The record, if the input starts with one of a known kind and length.
    fn record(&self) -> Option<Record> {
        match self {
            Call::Record(input) => frame::split(input).ok().as_ref().map(frame::read),
            Call::Spans(..) | Call::Charge(_) => None,
        }
    }

    /// What an answered call asked about, and how.
    fn question(&self) -> Option<(Fact, By)> {
        let fact = |item, label| Fact::Label { item, label };
        match (self, self.record()) {
            (Call::Charge(_), _) => None,
            (Call::Spans(item, label), _) => Some((fact(*item as u8, *label as u8), By::SpansCall)),
            (_, Some(Record::Spans { item, label })) => Some((fact(item, label), By::SpansRecord)),
            (_, Some(Record::Query(fact, depth))) => Some((fact, By::Query(depth))),
            _ => None,
        }
    }
}

/// The same question as a record.
fn asked((fact, by): (Fact, By)) -> Record {
    match (fact, by) {
        (fact, By::Query(depth)) => Record::Query(fact, depth),
        (Fact::Label { item, label }, _) => Record::Spans { item, label },
        (Fact::Link { .. }, _) => unreachable!("spans of a link"),
    }
}

pub struct Stream {
    pub source: Source,
    pub model: Memory,
    pub real: Memory,
    /// The record that last changed what is held.
    pub last: Option<Record>,
}

impl Stream {
    pub fn new(seed: u64) -> Stream {
        let mut dice = Dice::new(seed);
        let plan = plan(&mut dice);
        let mut source = Source::new(dice, plan);
        let mut model = Memory::zeros(WHOLE);
        let mut held = source.held();
        source.lay_pad(&mut held);
        source.lay_most(&mut held);
        model.block[..SIZE].copy_from_slice(&encode(&held));
        refill(&mut source.dice, &mut model);
        let real = model.clone();
        Stream {
            source,
            model,
            real,
            last: None,
        }
    }

    /// Makes all calls; the text of the first difference, if there is one.
    pub fn run(mut self, tally: &mut Tally) -> Result<(), String> {
        tally.streams += 1;
        (0..self.source.plan.calls).try_for_each(|number| self.step(number, tally))
    }

    /// One call, now and then on a spoiled block that is put back afterwards.
    fn step(&mut self, number: u64, tally: &mut Tally) -> Result<(), String> {
        if self.source.dice.percent(6) {
            refill(&mut self.source.dice, &mut self.model);
            self.real.clone_from(&self.model);
        }
        let call = self.call();
        let kept = self.spoiled();
        let lent = lengths(&mut self.source);
        let empty = self.source.dice.pick(&[Empty::Null, Empty::Start]);
        let before = self.model.block.clone();
        let reply = self.compare(&call, &lent, empty).map_err(|difference| {
            let lent = format!("{lent:?}, {empty:?}");
            format!("call {number}: {difference}\n{lent}\n{call:x?}\nblock before: {before:x?}")
        })?;
        match (&call, reply) {
            (Call::Charge(bill), Reply::Charge(charge)) => {
                let billed = Billed::new(&before, bill, lent, empty, charge);
                self.tell_charge(billed.behind(self.last), tally);
            }
            (_, Reply::Answer(answer)) => self.tell(&call, &before, answer, tally),
            _ => unreachable!("a charge for a record"),
        }
        tally.nulls += u64::from(empty == Empty::Null && call.lends_nothing(&lent));
        match kept {
            Some(block) => {
                self.model.block.clone_from(&block);
                self.real.block.clone_from(&block);
            }
            None if reply == Reply::Answer(Answer::Done) => self.changed(call.record()),
            None => self.ask_again(&call, reply, tally)?,
        }
        Ok(())
    }

    /// Asks the archive what was answered again, now and then, with the section as it is and moved.
    fn ask_again(&mut self, call: &Call, reply: Reply, tally: &mut Tally) -> Result<(), String> {
        let refused = match reply {
            Reply::Answer(answer) => matches!(answer, Answer::Refused(_)),
            Reply::Charge(charge) => matches!(charge, Charge::Refused(_)),
        };
        if refused || !self.source.dice.percent(self.source.plan.alike) {
            return Ok(());
        }
        let asked = match call {
            Call::Charge(bill) => self.charge_moved(bill, tally),
            _ => self.ask_moved(call, tally),
        };
        asked.map_err(|difference| {
            let block = &self.model.block;
            format!("asked again, {difference}\n{call:x?}\nblock: {block:x?}")
        })
    }

    /// A section, and where it is moved to.
    pub fn section(&mut self) -> (Held, Move) {
        let held = decode(&self.model.block).expect("a good block");
        let by = self.source.amount(&held);
        let way = self.source.dice.pick(&[Move::Mirror, Move::Shift(by)]);
        (held, way)
    }

    /// Remembers what last changed what is held; the usual depths go along with a shift.
    fn changed(&mut self, record: Option<Record>) {
        self.last = record;
        self.source.shifted = match record {
            Some(Record::Shift(by)) => Some(by),
            _ => None,
        };
        let by = self.source.shifted.unwrap_or(0);
        self.source.go_along(by);
    }

    /// Asks a question with the section as it is and moved.
    fn ask_moved(&mut self, call: &Call, tally: &mut Tally) -> Result<(), String> {
        let Some(question) = call.question() else {
            return Ok(());
        };
        let (held, way) = self.section();
        let question = self.source.asked_again(&held, asked(question));
        let asked = Alike::ask(&self.real, held, way, question)?;
        asked.iter().for_each(|alike| tally.see_alike(alike));
        Ok(())
    }

    /// Tells the tally what the call was and what it met.
    fn tell(&self, call: &Call, before: &[u8], answer: Answer, tally: &mut Tally) {
        tally.count(answer.numbers());
        if let Call::Record(input) = call {
            let seen = Seen::new(before, input, answer, &self.model.spans);
            tally.see(&seen.behind(self.last));
        }
        let refused = matches!(answer, Answer::Refused(_));
        let Some(question) = call.question().filter(|_| !refused) else {
            return;
        };
        let held = read(before).expect("a good block");
        let (links, items) = (&self.model.links, question.0.items());
        tally.combined.see(&held, links, items, answer.numbers().0);
        let asked = Asked::new(held, question, answer, self.last);
        asked.iter().for_each(|asked| tally.see_question(asked));
    }

    /// Spoils both blocks by the plan's chance and gives back what they held.
    fn spoiled(&mut self) -> Option<Vec<u8>> {
        if !self.source.dice.percent(self.source.plan.spoil) {
            return None;
        }
        let kept = self.model.block.clone();
        spoil(&mut self.source.dice, &mut self.model.block[..SIZE]);
        self.real.block.clone_from(&self.model.block);
        Some(kept)
    }

    fn span_call(&mut self, held: &Held) -> Call {
        let marked = self.source.well_item(held).into();
        let dice = &mut self.source.dice;
        let item = dice.pick(&[0, 0, 1, 1, 2, 3, 15, 16, 256, u32::MAX]);
        let label = dice.pick(&[0, 1, 1, 2, 3, 4, 62, 63, 64, 256, u32::MAX]);
        Call::Spans(dice.pick(&[item, marked]), label)
    }

    fn call(&mut self) -> Call {
        let held = decode(&self.model.block).unwrap_or_default();
        if self.source.dice.percent(8) {
            return self.span_call(&held);
        }
        if self.source.dice.percent(self.source.plan.charges) {
            return Call::Charge(self.source.bill(&held));
        }
        let record = self.source.record(&held);
        let input = self.source.written(&record);
        let dice = &mut self.source.dice;
        let damaged = dice.percent(self.source.plan.damage);
        Call::Record(match dice.below(50) {
            0 => Vec::new(),
            _ if damaged => damage(dice, input),
            _ => with_rest(dice, input),
        })
    }

    /// Makes the call on both sides and compares answer, bytes used and all memory.
    fn compare(&mut self, call: &Call, lent: &Lent, empty: Empty) -> Result<Reply, String> {
        let (expected, used, returned) = match call {
            Call::Record(input) => {
                let (answer, used) = service::record(&mut self.model, lent, input);
                let returned = panel::record(&mut self.real, lent, input, empty);
                (answer, used, returned)
            }
            Call::Spans(item, label) => {
                let answer = service::spans_of(&mut self.model, lent, *item, *label);
                let returned = panel::spans(&mut self.real, lent, *item, *label, empty);
                (answer, 0, (returned, 0))
            }
            Call::Charge(bill) => {
                return self.compare_charge(bill, lent, empty).map(Reply::Charge);
            }
        };
        let wanted = (expected.numbers(), used);
        if returned != wanted {
            let (wanted, given) = (said(wanted), said(returned));
            return Err(format!("{wanted} expected, {given} given"));
        }
        let difference = differing(&self.model, &self.real);
        difference.map_or(Ok(Reply::Answer(expected)), Err)
    }
}

fn said(((number, value), used): (Numbers, u64)) -> String {
    format!("answer {number} value {value} used {used}")
}

fn first<T: PartialEq + std::fmt::Debug>(name: &str, model: &[T], real: &[T]) -> Option<String> {
    if model == real {
        return None;
    }
    let at = (0..model.len()).find(|&i| model[i] != real[i])?;
    let (wanted, given) = (&model[at], &real[at]);
    Some(format!(
        "{name}[{at}]: {wanted:?} expected, {given:?} given"
    ))
}

pub fn differing(model: &Memory, real: &Memory) -> Option<String> {
    first("block", &model.block, &real.block)
        .or_else(|| first("labels", &model.labels, &real.labels))
        .or_else(|| first("links", &model.links, &real.links))
        .or_else(|| first("spans", &model.spans, &real.spans))
}
