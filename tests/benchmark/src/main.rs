//! Times of the static library beside `paper`'s and, where it is installed,
//! EPICS's, in one run: `benchmark [ROUNDS]` (default 501). Each figure is the
//! median or the best of that many short batches, the contenders taking turns.
//! The last line has the greatest ratios to EPICS. `benchmark before OLD NEW [ROUNDS]`
//! has the questions of two libraries in turns.

mod before;
mod epics;
mod files;
mod measure;
mod ratios;
mod register;
mod shared;

use epics::clients::Clients;
use epics::{Asked, Epics};
use files::Sample;
use measure::{times, Time, Timed};
use paper::{Access, Answer, Question, Reading, LETTERS, NAME_BYTES, TABLE_BYTES, TEXT_BYTES};
use ratios::{Kind, Ratios};
use std::ffi::CString;
use std::hint::black_box;

/// A and B read these; all other letters were never heard.
const VALUES: [f64; 2] = [0.25, 2.0];
const LEVEL: u32 = 1;

/// A sample with all that is needed to ask about it.
struct Prepared<'a> {
    sample: &'a Sample,
    table: Vec<u8>,
    states: Vec<u8>,
    rounds: usize,
    epics: Option<Epics>,
}

impl Prepared<'_> {
    fn text(&self) -> &[u8] {
        self.sample.text.as_bytes()
    }

    fn asked(&self) -> library::Asked<'_> {
        library::Asked {
            group: self.sample.group.as_bytes(),
            user: self.sample.user.as_bytes(),
            host: self.sample.host.as_bytes(),
            roles: &[],
            level: LEVEL,
            states: &self.states,
            values: &VALUES,
        }
    }

    fn question(&self) -> Question<'_> {
        let reading = |i: usize| VALUES.get(i).map_or(Reading::NeverHeard, |v| Reading::Value(*v));
        Question {
            group: self.sample.group.as_bytes(),
            user: self.sample.user.as_bytes(),
            host: self.sample.host.as_bytes(),
            roles: &[],
            level: LEVEL,
            readings: std::array::from_fn(reading),
        }
    }

    /// No reading heard: a calculation that is come to is bad by a letter.
    fn deaf(&self) -> library::Asked<'_> {
        library::Asked { states: &[], ..self.asked() }
    }

    fn deaf_question(&self) -> Question<'_> {
        Question { readings: [Reading::NeverHeard; LETTERS], ..self.question() }
    }

    fn epics_asked(&self) -> Asked {
        Asked::new(&self.sample.group, &self.sample.user, &self.sample.host, LEVEL, VALUES)
    }

    fn epics_text(&self) -> CString {
        CString::new(self.text()).expect("no NUL in a sample")
    }
}

fn prepare(sample: &Sample, rounds: usize, epics: Option<Epics>) -> Prepared<'_> {
    let mut table = vec![0; TABLE_BYTES];
    let loaded = paper::load(sample.text.as_bytes(), &mut table).expect("the samples are right");
    table.truncate(loaded.length);
    let mut states = vec![0; LETTERS];
    states[..VALUES.len()].fill(2);
    let prepared = Prepared { sample, table, states, rounds, epics };
    prepared.agree();
    prepared
}

impl Prepared<'_> {
    /// All must say the same before they are timed.
    fn agree(&self) {
        let answer = paper::decide(&self.table, &self.question()).expect("it is answered");
        assert_eq!(answer.access, Access::Write, "the sample's question is for WRITE");
        let mut lent = vec![0; self.table.len()];
        assert_eq!(library::load(self.text(), &mut lent).refusal, 0);
        assert_eq!(lent, self.table);
        assert!(library::is_table(&lent));
        let decision = library::decide(&lent, &self.asked());
        assert_eq!((decision.access, decision.trap, decision.refusal), (2, answer.trap, 0));
        let answer = paper::decide(&self.table, &self.deaf_question()).expect("it is answered");
        let decision = library::decide(&lent, &self.deaf());
        assert_eq!((decision.access, decision.letter), (answer.access as u64, letter_of(&answer)));
        assert_eq!(answer.letter, Some(0), "the sample's calculation names A");
        if let Some(epics) = self.epics {
            assert!(epics.load(&self.epics_text()), "EPICS loads the sample");
            assert_eq!(epics.question(&mut self.epics_asked()), Some(2));
        }
    }

    /// A line of times: library, `paper`, and EPICS if it is the third.
    fn row(&self, name: &str, epics_name: &str, mut timed: Vec<Timed>) -> Option<[f64; 2]> {
        let times = times(&mut timed, self.rounds);
        line(name, epics_name, times[0], times.get(1), times.get(2))
    }

    /// A line of times: library, and EPICS if it is there.
    fn beside(&self, name: &str, epics_name: &str, library: Timed, epics: Option<Timed>) -> Option<[f64; 2]> {
        let mut timed: Vec<Timed> = [library].into_iter().chain(epics).collect();
        let times = times(&mut timed, self.rounds);
        line(name, epics_name, times[0], None, times.get(1))
    }

    fn loads(&self, ratios: &mut Ratios) {
        for cleared in [false, true] {
            let (mut one, mut two) = (vec![0xa5; TABLE_BYTES], vec![0xa5; TABLE_BYTES]);
            let clear = move |lent: &mut [u8]| {
                if cleared {
                    lent.fill(0);
                }
            };
            let mut timed = vec![
                Timed::new(move || {
                    clear(&mut one);
                    black_box(library::load(black_box(self.text()), &mut one));
                }),
                Timed::new(move || {
                    clear(&mut two);
                    let _ = black_box(paper::load(black_box(self.text()), &mut two));
                }),
            ];
            if let Some(epics) = self.epics {
                let text = self.epics_text();
                timed.push(Timed::new(move || {
                    black_box(epics.load(&text));
                }));
            }
            let name = if cleared { "load, buffer cleared before each" } else { "load, buffer not cleared" };
            let kind = if cleared { Kind::LoadCleared } else { Kind::Load };
            ratios.note(kind, self.sample.name, self.row(name, "asInitMem", timed));
        }
    }

    fn checks(&self) {
        let timed = vec![
            Timed::new(|| {
                black_box(library::is_table(black_box(&self.table)));
            }),
            Timed::new(|| {
                black_box(paper::is_table(black_box(&self.table)));
            }),
        ];
        self.row("check of the table", "", timed);
    }

    /// The table written back, to be seen beside its load.
    fn exports(&self) {
        let times = times(&mut exports(&self.table), self.rounds);
        line("export", "", times[0], times.get(1), None);
    }

    fn questions(&self, ratios: &mut Ratios) {
        let mut timed = self.checked_questions(&self.asked(), Self::question);
        timed.extend(self.epics_question());
        let row = self.row("question, table known as checked", "a whole question", timed);
        ratios.note(Kind::Question, self.sample.name, row);
        self.row("the same, no reading heard", "", self.checked_questions(&self.deaf(), Self::deaf_question));
        let question = library::Question::new(&self.asked());
        let mut timed = vec![
            Timed::new(move || {
                black_box(question.decide(black_box(&self.table)));
            }),
            Timed::new(|| {
                let _ = black_box(paper::decide(black_box(&self.table), &self.question()));
            }),
        ];
        timed.extend(self.epics_question());
        let row = self.row("question, table checked each time", "a whole question", timed);
        ratios.note(Kind::QuestionAndCheck, self.sample.name, row);
        if let Some(known) = self.epics.and_then(|e| Clients::new(e, self.epics_asked(), 1)) {
            assert_eq!(known.compute(), 2);
            let mut timed = self.checked_questions(&self.asked(), Self::question);
            timed.push(Timed::new(move || {
                black_box(known.compute());
            }));
            self.row("question, table known as checked", "asCompute alone: no group, no calculation", timed);
        }
    }

    fn epics_question(&self) -> Option<Timed<'_>> {
        let epics = self.epics?;
        let mut asked = self.epics_asked();
        Some(Timed::new(move || {
            black_box(epics.question(&mut asked));
        }))
    }

    /// The question on a table known as checked, by the library and by `paper`.
    fn checked_questions<'a>(
        &'a self,
        asked: &library::Asked<'a>,
        question: fn(&Self) -> Question<'_>,
    ) -> Vec<Timed<'a>> {
        let lent = library::Question::new(asked);
        vec![
            Timed::new(move || {
                // SAFETY: `agree` has asked `is_table` of these bytes.
                black_box(unsafe { lent.decide_checked(black_box(&self.table)) });
            }),
            Timed::new(move || {
                let _ = black_box(paper::decide_checked(black_box(&self.table), &question(self)));
            }),
        ]
    }
}

/// An export of a table, by the library and by `paper`, which must say the same.
fn exports(table: &[u8]) -> Vec<Timed<'_>> {
    let (mut one, mut two) = (vec![0; TEXT_BYTES], vec![0; TEXT_BYTES]);
    let length = paper::export(table, &mut two).expect("it can be written");
    assert_eq!(library::export_number(table, &mut one), length as u64);
    assert_eq!(one, two);
    vec![
        Timed::new(move || {
            black_box(library::export_number(black_box(table), &mut one));
        }),
        Timed::new(move || {
            let _ = black_box(paper::export(black_box(table), &mut two));
        }),
    ]
}

/// Of a table that no load makes: as many of everything as there can be, at its longest.
fn longest_text(rounds: usize) {
    let table = inputs::export::crowded(NAME_BYTES);
    println!("\nthe longest text, {TEXT_BYTES} bytes, of a table of {} bytes", table.len());
    let times = times(&mut exports(&table), rounds);
    line("export", "", times[0], times.get(1), None);
}

/// As C has it.
fn letter_of(answer: &Answer) -> u8 {
    answer.letter.map_or(0, |l| b'A' + l)
}

/// Prints a line, and answers the ratios to EPICS.
fn line(
    name: &str,
    epics_name: &str,
    library: Time,
    paper: Option<&Time>,
    epics: Option<&Time>,
) -> Option<[f64; 2]> {
    let paper = paper.map_or(" ".repeat(20), column);
    let Some(epics) = epics else {
        println!("  {name:42}{}{paper}", column(&library));
        return None;
    };
    let ratio = [library.median / epics.median, library.best / epics.best];
    let columns = column(&library) + &paper + &column(epics);
    println!("  {name:42}{columns}{:8.2}{:7.2}  {epics_name}", ratio[0], ratio[1]);
    Some(ratio)
}

/// Median and best.
fn column(time: &Time) -> String {
    let number = |t: f64| if t < 100.0 { format!("{t:.1}") } else { format!("{t:.0}") };
    format!("{:>11}{:>9}", number(time.median), number(time.best))
}

fn main() {
    let words: Vec<String> = std::env::args().skip(1).collect();
    if let [word, rest @ ..] = &words[..] {
        if word == "before" {
            return before::run(rest);
        }
    }
    if !library::LINKED {
        eprintln!("benchmark: the static library was not there when this was built");
        std::process::exit(2);
    }
    let rounds = words.first().map_or(501, |n| n.parse().expect("a number of rounds"));
    let epics = Epics::open();
    let stub = if library::STUB { "the stub, not the library; " } else { "" };
    let beside = if epics.is_some() { "EPICS beside" } else { "EPICS's library not installed" };
    println!("{stub}{beside}; nanoseconds, median and best of {rounds} batches; ratios: library / EPICS");
    let mut ratios = Ratios::default();
    for sample in &files::samples() {
        let prepared = prepare(sample, rounds, epics);
        let rules = sample.text.matches("RULE(").count();
        let (bytes, table) = (sample.text.len(), prepared.table.len());
        println!("\n{}: {bytes} bytes, {rules} rules, a table of {table} bytes", sample.name);
        let column = |name: &str| format!("{name:>11}{:>9}", "best");
        let head = format!("  {:42}{}{}", "", column("library"), column("paper"));
        let beside = if epics.is_some() { column("EPICS") + "   ratio   best" } else { String::new() };
        println!("{head}{beside}");
        prepared.loads(&mut ratios);
        prepared.checks();
        prepared.exports();
        prepared.questions(&mut ratios);
        prepared.register(&mut ratios);
    }
    longest_text(rounds);
    if epics.is_some() {
        println!("\n{ratios}");
    }
}
