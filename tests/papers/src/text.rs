//! Streams as text: one record on a line, ` => ` and the answer that it must get.
//! `name WORD NUMBER` gives an item, label or link kind a name; `#` starts a comment.
//! A mark at one depth is put and taken by the kinds 6 to 9, `from TOP to BOTTOM` by 13 to 16;
//! `counting NUMBER` is kind 17, `hole from TOP to BOTTOM` kind 18, `shift NUMBER` kind 20,
//! `profile` kind 21. `charge ITEM` with any number of `LABEL PRICE LEAST` is the call beside the
//! records; its total is in cents.

use model::frame::{bytes, wide_bytes};
use model::short::*;
use model::terms::*;
use std::collections::HashMap;

#[derive(Default)]
pub struct Example {
    /// The records' bytes.
    pub stream: Vec<u8>,
    pub listing: String,
    pub charges: Vec<Charged>,
    records: usize,
}

/// A charge between two records.
pub struct Charged {
    /// How many bytes of the stream stand before it.
    pub behind: usize,
    pub item: u32,
    /// The numbers of its lines, which may end inside one.
    pub numbers: Vec<u32>,
    /// The line of the text, and the answer that is written there.
    pub line: usize,
    pub answer: String,
}

struct Line<'a> {
    names: &'a HashMap<String, i64>,
    words: std::str::SplitWhitespace<'a>,
}

impl Line<'_> {
    fn word(&mut self) -> Result<&str, String> {
        self.words.next().ok_or("a word is missing".to_string())
    }

    /// A number or a name that stands for one.
    fn number(&mut self) -> Result<i64, String> {
        let word = self.word()?.to_string();
        let named = self.names.get(&word).copied();
        named
            .or_else(|| word.parse().ok())
            .ok_or(format!("{word} is neither a number nor a name"))
    }

    fn small(&mut self) -> Result<u8, String> {
        let number = self.number()?;
        u8::try_from(number).map_err(|_| format!("{number} does not fit a byte"))
    }

    /// A number of a charge.
    fn large(&mut self) -> Result<u32, String> {
        let number = self.number()?;
        u32::try_from(number).map_err(|_| format!("{number} does not fit 4 bytes"))
    }

    /// The numbers up to the line's end.
    fn all_large(&mut self) -> Result<Vec<u32>, String> {
        let mut numbers = Vec::new();
        while self.words.clone().next().is_some() {
            numbers.push(self.large()?);
        }
        Ok(numbers)
    }

    /// A depth of a mark or a hole, or a shift.
    fn depth(&mut self) -> Result<i32, String> {
        let number = self.number()?;
        i32::try_from(number).map_err(|_| format!("{number} does not fit 4 bytes"))
    }

    fn operator(&mut self) -> Result<Operator, String> {
        let code = match self.word()? {
            "within" => {
                let n = self.number()?;
                return Ok(within(n as u32));
            }
            "between" => BETWEEN,
            "above" => ABOVE,
            "below" => BELOW,
            "anywhere" => ANYWHERE,
            other => return Err(format!("{other} is no operator")),
        };
        Ok(whole(code))
    }

    fn label(&mut self) -> Result<Fact, String> {
        Ok(has(self.small()?, self.small()?))
    }

    fn link(&mut self) -> Result<Fact, String> {
        Ok(link(self.small()?, self.small()?, self.small()?))
    }

    fn expect(&mut self, wanted: &str) -> Result<(), String> {
        match self.word()? {
            word if word == wanted => Ok(()),
            other => Err(format!("{other} where {wanted} belongs")),
        }
    }

    /// The words `from TOP to BOTTOM`.
    fn ends(&mut self) -> Result<(i32, i32), String> {
        self.expect("from")?;
        let top = self.depth()?;
        self.expect("to")?;
        Ok((top, self.depth()?))
    }

    /// A record about a mark, from its depths on.
    fn mark(&mut self, fact: Fact, record: fn(Mark) -> Record) -> Result<Vec<u8>, String> {
        if self.words.clone().next() != Some("from") {
            return Ok(bytes(&record(Mark::point(fact, self.depth()?))));
        }
        let (top, bottom) = self.ends()?;
        Ok(wide_bytes(&record(from_to(fact, top, bottom))))
    }

    /// A record that is not about a mark.
    fn other(&mut self, kind: &str) -> Result<Record, String> {
        Ok(match kind {
            "reset" => Record::Reset,
            "label" => label(self.operator()?, self.small()?, self.small()?),
            "both" => both(self.small()?, self.small()?, self.small()?),
            "linkrule" => link_rule(self.operator()?, self.small()?, self.small()?),
            "via" => via(self.small()?, self.small()?, self.small()?),
            "query" => query(self.label()?, self.number()?),
            "querylink" => query(self.link()?, self.number()?),
            "spans" => spans(self.small()?, self.small()?),
            "counting" => counting(self.small()?),
            "hole" => self.ends().map(|(top, bottom)| hole(top, bottom))?,
            "shift" => shift(self.depth()?),
            "profile" => Record::Profile,
            other => return Err(format!("{other} is no record")),
        })
    }

    /// The bytes of the record that the line says.
    fn record(&mut self) -> Result<Vec<u8>, String> {
        let kind = self.word()?.to_string();
        match kind.as_str() {
            "put" => self.label().and_then(|fact| self.mark(fact, Record::Put)),
            "putlink" => self.link().and_then(|fact| self.mark(fact, Record::Put)),
            "take" => self.label().and_then(|fact| self.mark(fact, Record::Take)),
            "takelink" => self.link().and_then(|fact| self.mark(fact, Record::Take)),
            other => Ok(bytes(&self.other(other)?)),
        }
    }
}

/// Reads a line of a charge or of a record into the example.
fn read_call(
    line: &mut Line,
    place: usize,
    answer: &str,
    example: &mut Example,
) -> Result<(), String> {
    if line.words.clone().next() == Some("charge") {
        line.expect("charge")?;
        example.charges.push(Charged {
            behind: example.stream.len(),
            item: line.large()?,
            numbers: line.all_large()?,
            line: place,
            answer: answer.to_string(),
        });
        return Ok(());
    }
    example.stream.extend(line.record()?);
    example.records += 1;
    example.listing += &format!("{} {}\n", example.records, answer);
    Ok(())
}

/// Reads one line into the example or the names.
fn read_line(
    (place, line): (usize, &str),
    names: &mut HashMap<String, i64>,
    example: &mut Example,
) -> Result<(), String> {
    let (said, answer) = line.split_once(" => ").unwrap_or((line, ""));
    let words = said.split_whitespace();
    if let ["name", word, number] = words.clone().collect::<Vec<_>>()[..] {
        let number = number.parse().map_err(|_| format!("{number}: no number"))?;
        names.insert(word.to_string(), number);
        return Ok(());
    }
    let mut line = Line { names, words };
    read_call(&mut line, place, answer.trim(), example)?;
    match answer.is_empty() || line.words.next().is_some() {
        true => Err(format!("{said}: no answer, or too many words")),
        false => Ok(()),
    }
}

pub fn read(text: &str) -> Result<Example, String> {
    let known = [("EVERY", EVERY), ("NEVER", NEVER)];
    let known = known.map(|(word, label)| (word.to_string(), i64::from(label)));
    let mut names = HashMap::from(known);
    let mut example = Example::default();
    for (place, line) in text.lines().enumerate() {
        let said = line.split('#').next().unwrap_or_default().trim();
        if !said.is_empty() {
            read_line((place + 1, said), &mut names, &mut example)
                .map_err(|error| format!("line {}: {error}", place + 1))?;
        }
    }
    Ok(example)
}
