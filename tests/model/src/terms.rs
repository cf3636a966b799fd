//! Names, limits, operators, countings, rules, marks, holes, records and answers of the
//! specification.
//! The types hold any field value; `Record::refusal` says which of them are in range.

pub const ITEMS: u8 = 16;
pub const LABELS: u8 = 64;
pub const KINDS: u8 = 8;
pub const EVERY: u8 = 0;
pub const NEVER: u8 = 63;
pub const MAX_RULES: usize = 128;
pub const MAX_MARKS: usize = 256;
pub const MAX_DEPTHS: usize = 96;
pub const MAX_N: u32 = 300_000;
pub const SHALLOWEST: i32 = -10_000;
pub const DEEPEST: i32 = 200_000;

/// The refusal numbers in the order in which they are tested: 15 stands directly after 7, and 14,
/// 16, 17 and 20 directly after 8.
pub const REFUSALS: [u32; 17] = [1, 2, 3, 4, 5, 6, 7, 15, 8, 14, 16, 17, 20, 9, 10, 11, 12];
/// As many places as an array by refusal number needs.
pub const REFUSAL_PLACES: usize = 21;

/// All ordered pairs of items.
pub fn pairs() -> impl Iterator<Item = (u8, u8)> {
    (0..ITEMS).flat_map(|from| (0..ITEMS).map(move |to| (from, to)))
}

pub const WITHIN: u8 = 1;
pub const BETWEEN: u8 = 2;
pub const ABOVE: u8 = 3;
pub const BELOW: u8 = 4;
pub const ANYWHERE: u8 = 5;

#[derive(Clone, Copy, Debug, PartialEq, Eq, Hash)]
pub struct Operator {
    pub code: u8,
    pub n: u32,
}

impl Operator {
    fn in_range(&self) -> bool {
        match self.code {
            WITHIN => (1..=MAX_N).contains(&self.n),
            BETWEEN..=ANYWHERE => self.n == 0,
            _ => false,
        }
    }

    /// Whether it may give depths above the least of its set or below the greatest.
    pub fn goes_beyond(&self) -> bool {
        matches!(self.code, ABOVE | BELOW | ANYWHERE)
    }
}

/// How WITHIN n counts the distance from j to k.
#[derive(Clone, Copy, Debug, Default, PartialEq, Eq)]
pub enum Counting {
    /// Last year's rule lists: k - j < n.
    #[default]
    Old,
    /// This year's: k - j <= n.
    New,
}

impl Counting {
    /// The counting that a record of kind 17 names, if there is one of that number.
    pub fn named(value: u8) -> Option<Counting> {
        match value {
            1 => Some(Counting::Old),
            2 => Some(Counting::New),
            _ => None,
        }
    }

    /// What a distance has to stay under. Distances are whole numbers, so up to n is under n + 1.
    pub fn bound(self, n: u32) -> i64 {
        match self {
            Counting::Old => i64::from(n),
            Counting::New => i64::from(n) + 1,
        }
    }
}

#[derive(Clone, Copy, Debug, PartialEq, Eq, Hash)]
pub enum Rule {
    Label { op: Operator, a: u8, b: u8 },
    Both { a: u8, b: u8, c: u8 },
    LinkRule { op: Operator, r: u8, s: u8 },
    Via { r: u8, a: u8, b: u8 },
}

impl Rule {
    pub fn operator(self) -> Option<Operator> {
        match self {
            Rule::Label { op, .. } | Rule::LinkRule { op, .. } => Some(op),
            Rule::Both { .. } | Rule::Via { .. } => None,
        }
    }

    /// Whether it is in the print profile: no operator that goes beyond what is there, and no left
    /// side that is EVERY alone. A link is never everywhere, so every VIA is in it.
    pub fn in_profile(self) -> bool {
        match self {
            Rule::Label { op, a, .. } => !op.goes_beyond() && a != EVERY,
            Rule::Both { a, b, .. } => a != EVERY || b != EVERY,
            Rule::LinkRule { op, .. } => !op.goes_beyond(),
            Rule::Via { .. } => true,
        }
    }
}

/// What a mark or a question speaks of, without its depth.
#[derive(Clone, Copy, Debug, PartialEq, Eq, Hash)]
pub enum Fact {
    Label { item: u8, label: u8 },
    Link { from: u8, kind: u8, to: u8 },
}

impl Fact {
    /// The items that it is about: both ends of a link, or a label's item twice.
    pub fn items(self) -> [u8; 2] {
        match self {
            Fact::Label { item, .. } => [item, item],
            Fact::Link { from, to, .. } => [from, to],
        }
    }

    pub fn is_link(self) -> bool {
        matches!(self, Fact::Link { .. })
    }
}

/// True at each depth from top to bottom, both included.
#[derive(Clone, Copy, Debug, PartialEq, Eq, Hash)]
pub struct Mark {
    pub fact: Fact,
    pub top: i32,
    pub bottom: i32,
}

impl Mark {
    /// A mark with both ends equal.
    pub fn point(fact: Fact, depth: i32) -> Mark {
        Mark {
            fact,
            top: depth,
            bottom: depth,
        }
    }

    pub fn is_point(&self) -> bool {
        self.top == self.bottom
    }

    /// The depths that it marks; those in between are not marked.
    pub fn ends(&self) -> [i32; 2] {
        [self.top, self.bottom]
    }
}

/// The depths that exist, where a record of kind 18 said so; both ends are among them.
#[derive(Clone, Copy, Debug, PartialEq, Eq)]
pub struct Hole {
    pub top: i32,
    pub bottom: i32,
}

impl Hole {
    pub fn ends(&self) -> [i32; 2] {
        [self.top, self.bottom]
    }

    /// Whether no depth of the mark, whose top is not the deeper end, lies outside.
    pub fn holds(&self, mark: &Mark) -> bool {
        self.top <= mark.top && mark.bottom <= self.bottom
    }
}

#[derive(Clone, Copy, Debug, PartialEq, Eq)]
pub enum Record {
    Reset,
    Rule(Rule),
    Put(Mark),
    Take(Mark),
    Query(Fact, i64),
    Spans {
        item: u8,
        label: u8,
    },
    Counting(u8),
    Hole(Hole),
    Profile,
    /// How much deeper all marks and the hole lie.
    Shift(i32),
}

impl Record {
    /// The first of refusals 6, 7, 8 and 14, in this order, that applies.
    pub fn refusal(&self) -> Option<u32> {
        let cases = [
            (6, self.names()),
            (7, self.codes()),
            (8, self.depths()),
            (14, self.upright()),
        ];
        let broken = cases.into_iter().find(|&(_, in_order)| !in_order);
        broken.map(|(number, _)| number)
    }

    fn names(&self) -> bool {
        match *self {
            Record::Reset | Record::Counting(_) | Record::Hole(_) => true,
            Record::Profile | Record::Shift(_) => true,
            Record::Rule(rule) => rule_names(rule),
            Record::Put(mark) | Record::Take(mark) => fact_names(mark.fact, 1, NEVER - 1),
            Record::Query(fact, _) => fact_names(fact, EVERY, NEVER),
            Record::Spans { item, label } => item < ITEMS && label < LABELS,
        }
    }

    /// An operator's code and n, or the counting.
    fn codes(&self) -> bool {
        match self {
            Record::Rule(rule) => rule.operator().is_none_or(|op| op.in_range()),
            Record::Counting(value) => Counting::named(*value).is_some(),
            _ => true,
        }
    }

    /// The top and bottom that the record gives.
    fn ends(&self) -> Option<[i32; 2]> {
        match self {
            Record::Put(mark) | Record::Take(mark) => Some(mark.ends()),
            Record::Hole(hole) => Some(hole.ends()),
            _ => None,
        }
    }

    fn depths(&self) -> bool {
        let in_range = |end: &i32| (SHALLOWEST..=DEEPEST).contains(end);
        self.ends().iter().flatten().all(in_range)
    }

    /// No top deeper than its bottom.
    fn upright(&self) -> bool {
        self.ends().is_none_or(|[top, bottom]| top <= bottom)
    }
}

fn rule_names(rule: Rule) -> bool {
    let left = |label: u8| label < NEVER;
    let concluded = |label: u8| label > EVERY && label <= NEVER;
    match rule {
        Rule::Label { a, b, .. } => left(a) && concluded(b),
        Rule::Both { a, b, c } => left(a) && left(b) && concluded(c),
        Rule::LinkRule { r, s, .. } => r < KINDS && s < KINDS,
        Rule::Via { r, a, b } => r < KINDS && left(a) && concluded(b),
    }
}

fn fact_names(fact: Fact, first: u8, last: u8) -> bool {
    match fact {
        Fact::Label { item, label } => item < ITEMS && label >= first && label <= last,
        Fact::Link { from, kind, to } => from < ITEMS && kind < KINDS && to < ITEMS,
    }
}

#[derive(Clone, Copy, Debug, PartialEq, Eq)]
pub enum Answer {
    Done,
    Yes,
    No,
    Contradiction(u32),
    Spans(u32),
    End,
    Refused(u32),
}

impl Answer {
    /// The number of the answer and its value, as the exported calls return them.
    pub fn numbers(self) -> (u32, u32) {
        match self {
            Answer::Done => (0, 0),
            Answer::Yes => (1, 0),
            Answer::No => (2, 0),
            Answer::Contradiction(item) => (3, item),
            Answer::Spans(count) => (4, count),
            Answer::End => (5, 0),
            Answer::Refused(number) => (6, number),
        }
    }
}

impl std::fmt::Display for Answer {
    fn fmt(&self, f: &mut std::fmt::Formatter<'_>) -> std::fmt::Result {
        match self {
            Answer::Done => write!(f, "done"),
            Answer::Yes => write!(f, "yes"),
            Answer::No => write!(f, "no"),
            Answer::Contradiction(item) => write!(f, "contradiction {item}"),
            Answer::Spans(count) => write!(f, "spans {count}"),
            Answer::End => write!(f, "end"),
            Answer::Refused(number) => write!(f, "refused {number}"),
        }
    }
}
