// The search for the worst combination in plain Rust, by the same method as crates/questions and without proofs.
use std::cmp::Ordering;

// A load as both programs take it: the letter of its kind and its numbers.
#[derive(Clone, Copy, Debug, Default)]
#[repr(C)]
pub struct Entry {
    pub letter: u8,
    pub number: u64,
    pub group: u64,
    pub upper: u64,
    pub lower: u64,
    pub class: u64,
    pub area: u64,
    pub storeys: u64,
    pub force: i64,
}

#[derive(Clone, Copy, PartialEq)]
pub enum Norm {
    Sp20,
    Snip85,
}

impl Norm {
    pub fn word(self) -> &'static str {
        match self {
            Norm::Sp20 => "SP20",
            Norm::Snip85 => "SNIP85",
        }
    }
}

#[derive(Clone, Copy, Debug, PartialEq)]
pub enum Question {
    Basic,
    Special,
}

#[derive(Clone, Copy, PartialEq)]
enum Kind {
    Permanent,
    LongTerm,
    ShortTerm,
    Special,
}

#[derive(Clone, Copy)]
struct Record {
    kind: Kind,
    load: Entry,
}

impl Record {
    fn of(load: &Entry) -> Option<Record> {
        let kind = match load.letter {
            b'P' => Kind::Permanent,
            b'L' => Kind::LongTerm,
            b'T' => Kind::ShortTerm,
            b'S' => Kind::Special,
            _ => return None,
        };
        Some(Record { kind, load: *load })
    }
}

// The percentages in force for one kind, by role.
#[derive(Clone, Copy, PartialEq)]
struct Percents {
    leading: u64,
    second: u64,
    other: u64,
}

const WHOLE: Percents = Percents {
    leading: 100,
    second: 100,
    other: 100,
};

#[derive(Clone, Copy)]
enum Assignment {
    Out,
    Leading,
    Second,
    Other,
}

#[derive(Clone, Copy)]
struct PartChoice {
    roles: [Assignment; 32],
}

struct Rates {
    weights: [u64; 32],
    percents: Percents,
}

fn factor(class: u64, area: u64, storeys: u64) -> u64 {
    let (base, bound, from) = match class {
        0 => return 10_000,
        1 => (4000u64, 32_400_000_000u64, 900u64),
        _ => (5000, 90_000_000_000, 3600),
    };
    let need = bound.div_ceil(area.max(from) * storeys);
    let root = need.isqrt();
    base + if root * root < need { root + 1 } else { root }
}

fn weigh(records: &[Record]) -> [u64; 32] {
    let mut weights = [0; 32];
    for (weight, Record { load, .. }) in weights.iter_mut().zip(records) {
        *weight = load.upper * factor(load.class, load.area, load.storeys);
    }
    weights
}

fn share_of(record: &Record, weight: u64, percent: u64) -> i64 {
    ((weight * percent) as i64).wrapping_mul(record.load.force)
}

fn contribution(record: &Record, weight: u64, percents: Percents, role: Assignment) -> i64 {
    match role {
        Assignment::Out => 0,
        Assignment::Leading => share_of(record, weight, percents.leading),
        Assignment::Second => share_of(record, weight, percents.second),
        Assignment::Other => share_of(record, weight, percents.other),
    }
}

fn total(records: &[Record], weights: &[u64; 32], percents: Percents, choice: &PartChoice) -> i64 {
    let mut sum = 0i64;
    for k in (0..records.len()).rev() {
        sum = contribution(&records[k], weights[k], percents, choice.roles[k]).wrapping_add(sum);
    }
    sum
}

fn with_record(part: Option<PartChoice>, j: usize, role: Assignment) -> Option<PartChoice> {
    part.map(|mut choice| {
        choice.roles[j] = role;
        choice
    })
}

fn larger(
    records: &[Record],
    rates: &Rates,
    a: Option<PartChoice>,
    b: Option<PartChoice>,
) -> Option<PartChoice> {
    match (a, b) {
        (None, _) => b,
        (_, None) => a,
        (Some(p), Some(q)) => {
            let first = total(records, &rates.weights, rates.percents, &p);
            let second = total(records, &rates.weights, rates.percents, &q);
            match first.cmp(&second) {
                Ordering::Less => b,
                _ => a,
            }
        }
    }
}

fn improved(
    records: &[Record],
    rates: &Rates,
    kept: Option<PartChoice>,
    part: Option<PartChoice>,
    j: usize,
    role: Assignment,
) -> Option<PartChoice> {
    larger(records, rates, kept, with_record(part, j, role))
}

// The best part choices that take one number of records, by whether roles 1 and 2 are given.
#[derive(Clone, Copy)]
struct Row {
    neither: Option<PartChoice>,
    leading: Option<PartChoice>,
    second: Option<PartChoice>,
    both: Option<PartChoice>,
}

impl Row {
    fn stepped(&self, old: &Row, records: &[Record], rates: &Rates, j: usize) -> Row {
        let other = Assignment::Other;
        let neither = improved(records, rates, self.neither, old.neither, j, other);
        let leading = improved(records, rates, self.leading, old.leading, j, other);
        let leading = improved(records, rates, leading, old.neither, j, Assignment::Leading);
        let second = improved(records, rates, self.second, old.second, j, other);
        let second = improved(records, rates, second, old.neither, j, Assignment::Second);
        let both = improved(records, rates, self.both, old.both, j, other);
        let both = improved(records, rates, both, old.second, j, Assignment::Leading);
        let both = improved(records, rates, both, old.leading, j, Assignment::Second);
        Row {
            neither,
            leading,
            second,
            both,
        }
    }
}

fn is_fellow(records: &[Record], wanted: &[bool; 32], i: usize, j: usize) -> bool {
    let group = records[i].load.group;
    i == j || (wanted[j] && group != 0 && records[j].load.group == group)
}

fn mark_group(records: &[Record], wanted: &[bool; 32], done: &mut [bool; 32], i: usize) {
    for j in 0..records.len() {
        if is_fellow(records, wanted, i, j) {
            done[j] = true;
        }
    }
}

fn group_count(records: &[Record], wanted: &[bool; 32]) -> usize {
    let mut done = [false; 32];
    let mut count = 0;
    for i in 0..records.len() {
        if wanted[i] && !done[i] {
            mark_group(records, wanted, &mut done, i);
            count += 1;
        }
    }
    count
}

// The best part choices by number of records taken, carried from group to group.
#[derive(Clone, Copy)]
struct Table {
    rows: [Row; 33],
    done: [bool; 32],
    groups: usize,
    limit: usize,
}

impl Table {
    fn blank(limit: usize) -> Table {
        let empty = Row {
            neither: None,
            leading: None,
            second: None,
            both: None,
        };
        let mut rows = [empty; 33];
        rows[0].neither = Some(PartChoice {
            roles: [Assignment::Out; 32],
        });
        Table {
            rows,
            done: [false; 32],
            groups: 0,
            limit,
        }
    }

    fn offer(&mut self, old: &Table, records: &[Record], rates: &Rates, j: usize) {
        for count in 1..self.groups.min(self.limit) + 1 {
            self.rows[count] = self.rows[count].stepped(&old.rows[count - 1], records, rates, j);
        }
        self.done[j] = true;
    }

    fn carry(&mut self, records: &[Record], rates: &Rates, wanted: &[bool; 32], i: usize) {
        let old = *self;
        self.groups += 1;
        for j in 0..records.len() {
            if is_fellow(records, wanted, i, j) {
                self.offer(&old, records, rates, j);
            }
        }
    }

    fn of(records: &[Record], rates: &Rates, wanted: &[bool; 32], limit: usize) -> Table {
        let mut table = Table::blank(limit);
        for i in 0..records.len() {
            if wanted[i] && !table.done[i] {
                table.carry(records, rates, wanted, i);
            }
        }
        table
    }

    fn best(&self, number: usize) -> Option<PartChoice> {
        let row = &self.rows[number];
        match number {
            0 => row.neither,
            1 => row.leading,
            _ => row.both,
        }
    }
}

// The table of a kind, with the percentages that it was built at.
struct Known {
    wanted: [bool; 32],
    percents: Option<Percents>,
    table: Table,
}

impl Known {
    fn of(records: &[Record], kind: Kind) -> Known {
        let mut wanted = [false; 32];
        for (flag, record) in wanted.iter_mut().zip(records) {
            *flag = record.kind == kind;
        }
        Known {
            wanted,
            percents: None,
            table: Table::blank(0),
        }
    }

    fn turn_to(&mut self, records: &[Record], weights: &[u64; 32], p: Percents, number: usize) {
        if self.table.limit < number || self.percents != Some(p) {
            let rates = Rates {
                weights: *weights,
                percents: p,
            };
            self.table = Table::of(records, &rates, &self.wanted, number);
            self.percents = Some(p);
        }
    }
}

#[derive(Clone, Copy)]
enum Term {
    Long,
    Short,
}

// How many long-term and short-term loads are taken.
#[derive(Clone, Copy)]
struct Numbers {
    long: u64,
    short: u64,
}

impl Numbers {
    fn of(self, term: Term) -> u64 {
        match term {
            Term::Long => self.long,
            Term::Short => self.short,
        }
    }
}

// Where the percentages of a question come from.
#[derive(Clone, Copy)]
struct Source {
    norm: Norm,
    question: Question,
}

impl Source {
    fn percent(self, term: Term, role: u64, numbers: Numbers) -> u64 {
        let alone = numbers.long + numbers.short == 1;
        match (self.norm, self.question, term) {
            _ if role > numbers.of(term) => 0,
            (Norm::Sp20, _, Term::Long) if role == 1 => 100,
            (Norm::Sp20, _, Term::Long) => 95,
            (Norm::Sp20, Question::Basic, Term::Short) => [100, 90, 70][role as usize - 1],
            (Norm::Snip85, Question::Basic, _) if alone => 100,
            (Norm::Snip85, _, Term::Long) => 95,
            (Norm::Snip85, Question::Basic, Term::Short) => 90,
            (_, Question::Special, Term::Short) => 80,
        }
    }

    fn percents_for(self, term: Term, numbers: Numbers, known: &Known) -> Percents {
        let last = known.percents.unwrap_or(WHOLE);
        let asked = |role, last| {
            if role <= numbers.of(term) {
                self.percent(term, role, numbers)
            } else {
                last
            }
        };
        Percents {
            leading: asked(1, last.leading),
            second: asked(2, last.second),
            other: asked(3, last.other),
        }
    }
}

// What an answer shows of one record.
#[derive(Clone, Copy)]
#[allow(dead_code)]
enum Pick {
    Upper,
    Lower,
    Out,
    Taken,
    As(Assignment),
}

fn at_factor(load: &Entry, pick: Pick) -> i64 {
    let factor = match pick {
        Pick::Lower => load.lower,
        _ => load.upper,
    };
    ((factor * 1_000_000) as i64).wrapping_mul(load.force)
}

fn permanent_pick(load: &Entry) -> Pick {
    if at_factor(load, Pick::Lower) > at_factor(load, Pick::Upper) {
        Pick::Lower
    } else {
        Pick::Upper
    }
}

fn permanent_sum(records: &[Record]) -> i64 {
    let mut sum = 0i64;
    for Record { kind, load } in records {
        if *kind == Kind::Permanent {
            sum = sum.wrapping_add(at_factor(load, permanent_pick(load)));
        }
    }
    sum
}

// What is known of the kinds.
struct Tables {
    permanent: i64,
    long: Known,
    short: Known,
    special: Known,
}

impl Tables {
    fn of(records: &[Record], weights: &[u64; 32]) -> Tables {
        let mut special = Known::of(records, Kind::Special);
        special.turn_to(records, weights, WHOLE, 1);
        Tables {
            permanent: permanent_sum(records),
            long: Known::of(records, Kind::LongTerm),
            short: Known::of(records, Kind::ShortTerm),
            special,
        }
    }
}

// A choice of each kind, with what they come to together with the permanent loads.
#[derive(Clone, Copy)]
struct Candidate {
    effect: i64,
    long: PartChoice,
    short: PartChoice,
    special: PartChoice,
}

// The best candidate for one pair of numbers.
fn pair(
    source: Source,
    records: &[Record],
    weights: &[u64; 32],
    tables: &mut Tables,
    nl: usize,
    nt: usize,
) -> Option<Candidate> {
    let numbers = Numbers {
        long: nl as u64,
        short: nt as u64,
    };
    let of_long = source.percents_for(Term::Long, numbers, &tables.long);
    let of_short = source.percents_for(Term::Short, numbers, &tables.short);
    tables.long.turn_to(records, weights, of_long, nl);
    tables.short.turn_to(records, weights, of_short, nt);
    let long = tables.long.table.best(nl)?;
    let short = tables.short.table.best(nt)?;
    let specials = match source.question {
        Question::Basic => 0,
        Question::Special => 1,
    };
    let special = tables.special.table.best(specials)?;
    let temporary = total(records, weights, of_short, &short)
        .wrapping_add(total(records, weights, WHOLE, &special));
    let taken = total(records, weights, of_long, &long).wrapping_add(temporary);
    Some(Candidate {
        effect: tables.permanent.wrapping_add(taken),
        long,
        short,
        special,
    })
}

fn larger_candidate(a: Option<Candidate>, b: Option<Candidate>) -> Option<Candidate> {
    match (a, b) {
        (None, _) => b,
        (_, None) => a,
        (Some(p), Some(q)) => match p.effect.cmp(&q.effect) {
            Ordering::Less => b,
            _ => a,
        },
    }
}

// All numbers of short-term loads beside nl long-term ones.
fn across(
    source: Source,
    records: &[Record],
    weights: &[u64; 32],
    tables: &mut Tables,
    before: Option<Candidate>,
    nl: usize,
    shorts: usize,
) -> Option<Candidate> {
    let mut best = before;
    for nt in (0..shorts + 1).rev() {
        best = larger_candidate(best, pair(source, records, weights, tables, nl, nt));
    }
    best
}

fn worst(source: Source, records: &[Record]) -> Option<Candidate> {
    let weights = weigh(records);
    let mut tables = Tables::of(records, &weights);
    let longs = group_count(records, &tables.long.wanted);
    let shorts = group_count(records, &tables.short.wanted);
    let mut best = None;
    for nl in (0..longs + 1).rev() {
        best = across(source, records, &weights, &mut tables, best, nl, shorts);
    }
    best
}

struct Answer {
    effect: i64,
    #[allow(dead_code)]
    picks: [Pick; 32],
}

fn place(record: &Record, best: &Candidate, k: usize) -> Pick {
    let role = match record.kind {
        Kind::Permanent => return permanent_pick(&record.load),
        Kind::LongTerm => best.long.roles[k],
        Kind::ShortTerm => best.short.roles[k],
        Kind::Special => best.special.roles[k],
    };
    match (role, record.kind) {
        (Assignment::Out, _) => Pick::Out,
        (_, Kind::Special) => Pick::Taken,
        _ => Pick::As(role),
    }
}

fn answer(source: Source, records: &[Record]) -> Option<Answer> {
    let is_special = |record: &Record| record.kind == Kind::Special;
    if source.question == Question::Special && !records.iter().any(is_special) {
        return None;
    }
    let best = worst(source, records)?;
    let mut picks = [Pick::Out; 32];
    for (k, record) in records.iter().enumerate() {
        picks[k] = place(record, &best, k);
    }
    Some(Answer {
        effect: best.effect,
        picks,
    })
}

fn records_of(entries: &[Entry]) -> Option<[Record; 32]> {
    let blank = Record {
        kind: Kind::Permanent,
        load: Entry::default(),
    };
    let mut records = [blank; 32];
    if entries.len() > records.len() {
        return None;
    }
    for (record, entry) in records.iter_mut().zip(entries) {
        *record = Record::of(entry)?;
    }
    Some(records)
}

// The worst effect; the least number where the entries are no loads or none is special and one is asked for.
pub fn worst_effect(norm: Norm, question: Question, entries: &[Entry]) -> i64 {
    let Some(records) = records_of(entries) else {
        return i64::MIN;
    };
    let source = Source { norm, question };
    match answer(source, &records[..entries.len()]) {
        None => i64::MIN,
        Some(answer) => answer.effect,
    }
}
