// The proved search beside the same method in plain Rust: equal effects on random sheets, then the time of one question.
mod plain;

use plain::Entry;
use plain::Norm;
use plain::Question;
use std::hint::black_box;
use std::process::ExitCode;
use std::time::Duration;
use std::time::Instant;

const NORMS: [Norm; 2] = [Norm::Sp20, Norm::Snip85];
const QUESTIONS: [Question; 2] = [Question::Basic, Question::Special];
const SHAPES: [(&str, &[u8]); 2] = [("L and T in turn", b"LT"), ("all T", b"T")];
const LENGTHS: [usize; 4] = [8, 16, 24, 32];
const SEED: u64 = 0x9E37_79B9_7F4A_7C15;
const SHEETS: usize = 4000;
const TIMES: usize = 501;

// crates/bench_entry; a slice goes as a pointer and a length.
#[link(name = "bench_entry", kind = "static")]
unsafe extern "C" {
    fn bench_entry_basic(is_snip85: bool, entries: *const Entry, length: usize) -> i64;
    fn bench_entry_special(is_snip85: bool, entries: *const Entry, length: usize) -> i64;
}

fn proved(norm: Norm, question: Question, entries: &[Entry]) -> i64 {
    let is_snip85 = norm == Norm::Snip85;
    let (entries, length) = (entries.as_ptr(), entries.len());
    match question {
        Question::Basic => unsafe { bench_entry_basic(is_snip85, entries, length) },
        Question::Special => unsafe { bench_entry_special(is_snip85, entries, length) },
    }
}

// Numbers that look random and are the same in every run (xorshift).
struct Draw(u64);

impl Draw {
    fn below(&mut self, end: u64) -> u64 {
        self.0 ^= self.0 << 13;
        self.0 ^= self.0 >> 7;
        self.0 ^= self.0 << 17;
        (self.0 >> 11) % end
    }

    fn one_of<T: Copy>(&mut self, all: &[T]) -> T {
        all[self.below(all.len() as u64) as usize]
    }

    // A force of few or of many newtons, of either sign: small ones make equal effects.
    fn force(&mut self) -> i64 {
        let reach = self.one_of(&[3, 1_000, 1_000_000_000]);
        self.below(2 * reach + 1) as i64 - reach as i64
    }

    // A load that keeps the rules: a group is of long-term loads where it is odd, of short-term ones where it is even.
    fn load(&mut self, number: u64) -> Entry {
        let letter = self.one_of(b"PLLLTTTTS");
        let group = self.one_of(&[0, 0, 2, 4, 98]);
        let upper = 80 + self.below(121);
        let mut load = Entry {
            letter,
            number,
            upper,
            force: self.force(),
            ..Entry::default()
        };
        match letter {
            b'P' => load.lower = 80 + self.below(upper - 79),
            b'L' if group != 0 => load.group = group + 1,
            b'T' => load.group = group,
            _ => {}
        }
        if letter == b'T' && self.below(2) == 0 {
            let most = self.one_of(&[10_000, 1_000_000]);
            load.class = 1 + self.below(2);
            load.area = 1 + self.below(most);
            load.storeys = 1 + self.below(40);
        }
        load
    }

    fn sheet(&mut self) -> Vec<Entry> {
        let length = self.below(33);
        (1..=length).map(|number| self.load(number)).collect()
    }
}

fn is_equal(entries: &[Entry]) -> bool {
    for norm in NORMS {
        for question in QUESTIONS {
            let one = proved(norm, question, entries);
            let other = plain::worst_effect(norm, question, entries);
            if one != other {
                let norm = norm.word();
                println!("{norm} {question:?}: proved {one}, plain {other}, of {entries:#?}");
                return false;
            }
        }
    }
    true
}

// The sheets that are timed, random ones, one load too many, and a letter that stands for no kind.
fn are_equal() -> bool {
    let mut draw = Draw(SEED);
    let no_kind = Entry {
        letter: b'X',
        ..draw.load(1)
    };
    let is_shape_equal = |letters| (0..=33).all(|length: usize| is_equal(&loads(letters, length)));
    SHAPES.iter().all(|(_, letters)| is_shape_equal(letters))
        && (0..SHEETS).all(|_| is_equal(&draw.sheet()))
        && is_equal(&[no_kind])
}

// Loads whose kinds have these letters in turn, with random forces of both signs; a short-term one is reduced for its area.
fn loads(letters: &[u8], length: usize) -> Vec<Entry> {
    let mut draw = Draw(SEED);
    let mut all = vec![];
    for (number, letter) in (1..).zip(letters.iter().cycle().take(length)) {
        let is_short = *letter == b'T';
        all.push(Entry {
            letter: *letter,
            number,
            upper: 130,
            class: if is_short { 1 } else { 0 },
            area: if is_short { 2000 } else { 0 },
            storeys: if is_short { 1 } else { 0 },
            force: draw.below(2_000_001) as i64 - 1_000_000,
            ..Entry::default()
        });
    }
    all
}

fn time_of(ask: impl Fn() -> i64) -> Duration {
    let start = Instant::now();
    black_box(ask());
    start.elapsed()
}

fn median_ms(mut times: Vec<Duration>) -> f64 {
    times.sort();
    times[times.len() / 2].as_secs_f64() * 1e3
}

// The median times of one basic question, proved and plain, asked in turn.
fn medians(norm: Norm, entries: &[Entry]) -> (f64, f64) {
    let (mut of_proved, mut of_plain) = (vec![], vec![]);
    for _ in 0..TIMES {
        let ask_proved = || proved(black_box(norm), Question::Basic, black_box(entries));
        of_proved.push(time_of(ask_proved));
        let ask_plain =
            || plain::worst_effect(black_box(norm), Question::Basic, black_box(entries));
        of_plain.push(time_of(ask_plain));
    }
    (median_ms(of_proved), median_ms(of_plain))
}

fn show_times(name: &str, letters: &[u8], norm: Norm) {
    for length in LENGTHS {
        let (proved, plain) = medians(norm, &loads(letters, length));
        let ratio = proved / plain;
        let norm = norm.word();
        println!("| {name} | {norm} | {length} | {proved:.4} | {plain:.4} | {ratio:.2} |");
    }
}

fn main() -> ExitCode {
    if !are_equal() {
        return ExitCode::FAILURE;
    }
    println!("{SHEETS} random sheets and the sheets below, four questions each: equal effects.");
    println!("The median of {TIMES} basic questions, in ms:");
    println!("| Sheet | Norm | Loads | Proved | Plain | Ratio |");
    println!("|---|---|---|---|---|---|");
    for (name, letters) in SHAPES {
        for norm in NORMS {
            show_times(name, letters, norm);
        }
    }
    ExitCode::SUCCESS
}
