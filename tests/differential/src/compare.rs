//! One comparison: ask both, hold the answers and all lent bytes against each
//! other, count.

use inputs::question::Owned;
use inputs::random::Random;
use library::{Asked, Decision, Export, Found, List, Load, Pool};
use paper::table::{View, ACCESS_GROUPS, HOST_GROUPS, INPUTS, USER_GROUPS};
use paper::{Access, Answer, FILE_BYTES, TABLE_BYTES, TEXT_BYTES};
use std::collections::BTreeMap;
use std::fmt::Debug;

/// Why a case ends early.
pub enum Stop {
    Enough,
    /// What differs, with the input.
    Difference(String),
}

pub type Go = Result<(), Stop>;

pub struct Comparison {
    pub done: u64,
    pub limit: u64,
    /// How often each answer came, by `paper`.
    pub census: BTreeMap<String, u64>,
}

pub fn hex(bytes: &[u8]) -> String {
    bytes.iter().map(|b| format!("{b:02x}")).collect()
}

/// A load that says nothing yet.
const NOTHING: Load = Load { refusal: 0, place: 0, needed: 0, warnings: 0, length: 0, agrees: true };

const NO_RIGHT: Decision = Decision { refusal: 0, access: 0, trap: false, letter: 0, agrees: true };

/// Bytes that stand before and behind each lent buffer.
const GUARD: usize = 24;

/// A buffer to lend, in the middle of bytes that must stay.
struct Lent {
    whole: Vec<u8>,
}

impl Lent {
    fn new(random: &mut Random, length: usize) -> Lent {
        let (start, step) = (random.byte(), random.byte() | 1);
        let whole = (0..length + 2 * GUARD).map(|i| start.wrapping_add(step.wrapping_mul(i as u8)));
        Lent { whole: whole.collect() }
    }

    /// With these bytes in it.
    fn of(random: &mut Random, bytes: &[u8]) -> Lent {
        let mut lent = Lent::new(random, bytes.len());
        lent.part().copy_from_slice(bytes);
        lent
    }

    fn part(&mut self) -> &mut [u8] {
        let end = self.whole.len() - GUARD;
        &mut self.whole[GUARD..end]
    }
}

impl Comparison {
    pub fn new(limit: u64) -> Comparison {
        Comparison { done: 0, limit, census: BTreeMap::new() }
    }

    pub fn same<T: PartialEq + Debug>(&mut self, paper: T, library: T, input: impl Fn() -> String) -> Go {
        if paper != library {
            let answers = format!("paper   {paper:?}\nlibrary {library:?}");
            return Err(Stop::Difference(format!("{}\n{answers}", input())));
        }
        self.done += 1;
        if self.done >= self.limit {
            Err(Stop::Enough)
        } else {
            Ok(())
        }
    }

    pub fn count(&mut self, what: String) {
        *self.census.entry(what).or_default() += 1;
    }

    /// Load into a buffer of this length. Both answers and both buffers.
    pub fn load(&mut self, random: &mut Random, text: &[u8], length: usize) -> Go {
        let mut ours = Lent::new(random, length);
        let mut theirs = Lent { whole: ours.whole.clone() };
        let paper = match paper::load(text, ours.part()) {
            Ok(l) => Load { length: l.length as u64, warnings: l.warnings as u64, ..NOTHING },
            Err(r) if r.number == 11 => Load { refusal: 11, needed: r.place as u64, ..NOTHING },
            Err(r) => Load { refusal: r.number.into(), place: r.place as u64, ..NOTHING },
        };
        self.count(format!("load {:2}", paper.refusal));
        let library = library::load(text, theirs.part());
        self.same((paper, first_difference(&ours.whole, &theirs.whole)), (library, None), || {
            format!("load into {length} bytes of\n{}", hex(text))
        })
    }

    /// The list of warnings, with arrays of these lengths.
    pub fn list(&mut self, random: &mut Random, text: &[u8], skip: usize, lengths: (usize, usize)) -> Go {
        let mut numbers = Lent::new(random, lengths.0);
        let mut theirs = Lent { whole: numbers.whole.clone() };
        let mut places: Vec<u16> = (0..lengths.1 + 2 * GUARD).map(|_| random.bits() as u16).collect();
        let mut their_places = places.clone();
        let within = GUARD..GUARD + lengths.1;
        let paper = list_by_paper(text, skip, numbers.part(), &mut places[within.clone()]);
        self.count(format!("list {:2}", paper.refusal));
        let library = library::list_warnings(text, skip, theirs.part(), &mut their_places[within]);
        self.same((paper, numbers.whole, places), (library, theirs.whole, their_places), || {
            format!("warnings from {skip}, room for {lengths:?}, of\n{}", hex(text))
        })
    }

    pub fn is_table(&mut self, slice: &[u8]) -> Go {
        let paper = paper::is_table(slice);
        let undefined = paper && View::open(slice).is_some_and(|view| view.has_undefined());
        self.count(format!("table {paper}{}", if undefined { " with undefined groups" } else { "" }));
        self.same(paper, library::is_table(slice), || format!("is_table\n{}", hex(slice)))
    }

    /// Export into a buffer of this length. Both answers, both buffers, and the table's
    /// bytes, which stay.
    pub fn export(&mut self, random: &mut Random, table: &[u8], length: usize) -> Go {
        let mut ours = Lent::new(random, length);
        let mut theirs = Lent { whole: ours.whole.clone() };
        let stored = Lent::of(random, table);
        let mut lent = Lent { whole: stored.whole.clone() };
        let paper = match paper::export(table, ours.part()) {
            Ok(length) => Export { refusal: 0, needed: 0, length: length as u64, agrees: true },
            Err(r) => Export { refusal: r.number.into(), needed: r.place as u64, length: 0, agrees: true },
        };
        self.count(format!("export {:2}{}", paper.refusal, size(paper.length + paper.needed)));
        let library = library::export(lent.part(), theirs.part());
        let written = first_difference(&ours.whole, &theirs.whole);
        let changed = first_difference(&stored.whole, &lent.whole);
        self.same((paper, written, changed), (library, None, None), || {
            format!("export into {length} bytes of\n{}", hex(table))
        })
    }

    /// Of a table that a load made: its text loads to the same bytes, by the library and
    /// by `paper`, if it is no longer than a file may be. One that has no text defines
    /// nothing.
    pub fn round_trip(&mut self, table: &[u8]) -> Go {
        let mut text = vec![0; TEXT_BYTES];
        let answer = library::export(&mut table.to_vec(), &mut text);
        text.truncate(answer.length as usize);
        let loaded = |load: &dyn Fn(&[u8], &mut [u8]) -> u64| {
            let mut lent = vec![0; TABLE_BYTES];
            let length = load(&text, &mut lent);
            lent.truncate(length as usize);
            lent
        };
        let by_library = loaded(&|text, lent| library::load(text, lent).length);
        let by_paper = loaded(&|text, lent| paper::load(text, lent).map_or(0, |l| l.length as u64));
        let fits = answer.refusal == 0 && text.len() <= FILE_BYTES;
        let back = if fits { table.to_vec() } else { Vec::new() };
        let refusal = if defines_nothing(table) { 27 } else { 0 };
        self.count(format!("round trip {:2}{}", answer.refusal, size(text.len() as u64)));
        let input = || format!("round trip of\n{}", hex(table));
        self.same((refusal, &back, &back), (answer.refusal, &by_library, &by_paper), input)
    }

    /// The question by `decide`, and by `decide_checked` if it is a table.
    pub fn decide(&mut self, table: &[u8], question: &Owned) -> Go {
        let paper = decision_by_paper(table, question);
        let stopped = if paper.letter > 0 { " stopped by a letter" } else { "" };
        self.count(format!("decide {:2} {} {}{stopped}", paper.refusal, paper.access, paper.trap));
        let describe = |name: &str| format!("{name}\ntable {}\n{}", hex(table), described(question));
        self.same(paper, library::decide(table, &asked(question)), || describe("decide"))?;
        if !both_say_table(table) {
            return Ok(());
        }
        // SAFETY: the library has just said so of these bytes.
        let library = unsafe { library::decide_checked(table, &asked(question)) };
        self.same(paper, library, || describe("decide_checked"))
    }

    /// The proved function with more bytes than the roles have, which are not
    /// looked at, or with fewer, which is refused.
    pub fn pool(&mut self, random: &mut Random, table: &[u8], question: &Owned) -> Go {
        let mut paper = decision_by_paper(table, question);
        let mut pool = Pool::of(&question.roles);
        if pool.bytes.is_empty() || random.percent(50) {
            let more = random.between(1, 9);
            pool.bytes.extend(random.bytes(more));
        } else {
            pool.bytes.truncate(random.below(pool.bytes.len()));
            if paper.refusal == 0 {
                paper = Decision { refusal: 26, ..NO_RIGHT };
            }
        }
        self.count(format!("roles in a pool {:2}", paper.refusal));
        let describe = || format!("pool {pool:?}\ntable {}\n{}", hex(table), described(question));
        let asked = asked(question);
        self.same(paper.number(), library::decide_pool(table, &asked, &pool), describe)?;
        if !both_say_table(table) {
            return Ok(());
        }
        // SAFETY: the library has just said so of these bytes.
        let library = unsafe { library::decide_pool_checked(table, &asked, &pool) };
        self.same(paper.number(), library, || format!("checked, {}", describe()))
    }

    /// By the letter of an answer, as C has it, or by any other byte.
    pub fn stopping_input(&mut self, table: &[u8], group: &[u8], letter: u8) -> Go {
        let number = if letter.is_ascii_uppercase() { letter - b'A' } else { u8::MAX };
        let paper = found_by_paper(table, group, number.into());
        self.count(format!("stopping_input {:2}", paper.refusal));
        self.same(paper, library::stopping_input(table, group, letter), || {
            format!("stopping_input of byte {letter} in group {}\ntable {}", hex(group), hex(table))
        })
    }

    pub fn find_input(&mut self, table: &[u8], group: &[u8], letter: u32) -> Go {
        let paper = found_by_paper(table, group, letter);
        self.count(format!("find_input {:2}", paper.refusal));
        let describe =
            |name: &str| format!("{name} of letter {letter} in group {}\ntable {}", hex(group), hex(table));
        self.same(paper, library::find_input(table, group, letter), || describe("find_input"))?;
        if !both_say_table(table) {
            return Ok(());
        }
        // SAFETY: the library has just said so of these bytes.
        let library = unsafe { library::find_input_checked(table, group, letter) };
        self.same(paper, library, || describe("find_input_checked"))
    }

    /// Each access group by its number, and numbers of which there is none, without
    /// the check too if it is a table; the bytes of the table stay.
    pub fn groups(&mut self, random: &mut Random, table: &[u8]) -> Go {
        let lent = Lent::of(random, table);
        let mut theirs = Lent { whole: lent.whole.clone() };
        let checked = both_say_table(table);
        for number in group_numbers(random, table) {
            let paper = found(paper::group_at(table, number));
            self.count(format!("group_at {:2}", paper.refusal));
            let mut library = vec![library::group_at(theirs.part(), number)];
            if checked {
                // SAFETY: the library has said so of these bytes.
                library.push(unsafe { library::group_at_checked(theirs.part(), number) });
            }
            let paper = vec![paper; library.len()];
            if paper != library {
                return self.same(paper, library, || format!("group_at {number}\ntable {}", hex(table)));
            }
        }
        self.same(None, first_difference(&lent.whole, &theirs.whole), || {
            format!("group_at writes\ntable {}", hex(table))
        })
    }

    /// The inputs that a walk tells, with and without the check; the bytes of the table
    /// stay.
    pub fn walk(&mut self, random: &mut Random, table: &[u8]) -> Go {
        let lent = Lent::of(random, table);
        let mut theirs = Lent { whole: lent.whole.clone() };
        let paper = paper::inputs(table);
        self.count(format!("walk over {} inputs", if paper.is_empty() { "no" } else { "some" }));
        let mut library = vec![library::walk(theirs.part())];
        if both_say_table(table) {
            // SAFETY: the library has just said so of these bytes.
            library.push(unsafe { library::walk_checked(theirs.part()) });
        }
        let paper = vec![(paper, true); library.len()];
        let written = first_difference(&lent.whole, &theirs.whole);
        self.same((paper, None), (library, written), || format!("walk\ntable {}", hex(table)))
    }

    /// The header's, which is the library's, by the header and by number.
    pub fn version(&mut self) -> Go {
        let version = library::version();
        self.same([version[0]; 3], version, || "version".to_string())
    }

    /// The header's numbers are those of the papers.
    pub fn limits(&mut self) -> Go {
        let paper = [
            paper::FILE_BYTES,
            paper::TABLE_BYTES,
            paper::LETTERS,
            paper::TEXT_BYTES,
            paper::ROLES,
            paper::ROLE_BYTES,
            paper::PLACES,
            paper::MOST[ACCESS_GROUPS],
            paper::MOST[INPUTS],
        ];
        self.same(paper.map(|most| most as u64), library::limits(), || "limits".to_string())
    }

    pub fn allowed(&mut self, text: &[u8]) -> Go {
        let paper = paper::allowed(text);
        self.count(format!("allowed {paper}"));
        self.same(paper, library::allowed(text), || format!("allowed\n{}", hex(text)))
    }
}

/// For the count of answers: what is too long for a file, and for 16 bits.
fn size(bytes: u64) -> &'static str {
    match bytes {
        0..=16_384 => "",
        16_385..=65_535 => " over 16,384 bytes",
        _ => " over 65,535 bytes",
    }
}

/// Whether a table has neither user groups nor host groups nor access groups.
fn defines_nothing(table: &[u8]) -> bool {
    View::open(table)
        .is_some_and(|view| [USER_GROUPS, HOST_GROUPS, ACCESS_GROUPS].iter().all(|s| view.count(*s) == 0))
}

/// Whether a call without the check may be made.
fn both_say_table(slice: &[u8]) -> bool {
    paper::is_table(slice) && library::is_table(slice)
}

/// Where two buffers of one length first differ.
pub fn first_difference(ours: &[u8], theirs: &[u8]) -> Option<(isize, u8, u8)> {
    let place = ours.iter().zip(theirs).position(|(a, b)| a != b)?;
    Some((place as isize - GUARD as isize, ours[place], theirs[place]))
}

fn found_by_paper(table: &[u8], group: &[u8], letter: u32) -> Found {
    found(paper::find_input(table, group, letter))
}

fn found(answer: Result<(usize, usize), u8>) -> Found {
    match answer {
        Ok((place, length)) => Found { refusal: 0, place: place as u64, length: length as u64, agrees: true },
        Err(refusal) => Found { refusal: refusal.into(), place: 0, length: 0, agrees: true },
    }
}

/// All that the table has, if it has any, some behind, and such as look like one of
/// them to who takes fewer bits, or multiplies in them.
fn group_numbers(random: &mut Random, table: &[u8]) -> Vec<usize> {
    let count = View::open(table).map_or(1, |view| view.count(ACCESS_GROUPS));
    let mut numbers: Vec<usize> = (0..count + 3).collect();
    for bits in [8, 14, 16, 30, 32, 62, 63] {
        let high = 1usize << bits;
        numbers.extend([high - 1, high, high + random.below(count + 2)]);
    }
    numbers.extend([usize::MAX, usize::MAX - 1, usize::MAX - random.below(count + 2)]);
    numbers
}

/// The numbers and places from the skip-th on, as many as have room.
fn list_by_paper(text: &[u8], skip: usize, numbers: &mut [u8], places: &mut [u16]) -> List {
    let warnings = match paper::warnings(text) {
        Ok(warnings) => warnings,
        Err(r) => {
            return List { refusal: r.number.into(), place: r.place as u64, count: 0, agrees: true };
        }
    };
    let listed = warnings.get(skip..).unwrap_or(&[]);
    for (to, warning) in numbers.iter_mut().zip(listed) {
        *to = warning.number;
    }
    for (to, warning) in places.iter_mut().zip(listed) {
        *to = warning.place as u16;
    }
    List { refusal: 0, place: 0, count: warnings.len() as u64, agrees: true }
}

/// As the library is asked.
fn asked(question: &Owned) -> Asked<'_> {
    Asked {
        group: &question.group,
        user: &question.user,
        host: &question.host,
        roles: &question.roles,
        level: question.level,
        states: &question.states,
        values: &question.values,
    }
}

fn decision_by_paper(table: &[u8], question: &Owned) -> Decision {
    match paper::decide(table, &question.question()) {
        Err(refusal) => Decision { refusal: refusal.into(), ..NO_RIGHT },
        Ok(answer) => {
            let access = match answer.access {
                Access::None => 0,
                Access::Read => 1,
                Access::Write => 2,
            };
            Decision { access, trap: answer.trap, letter: letter_of(&answer), ..NO_RIGHT }
        }
    }
}

/// As C has it.
pub fn letter_of(answer: &Answer) -> u8 {
    answer.letter.map_or(0, |l| b'A' + l)
}

fn described(question: &Owned) -> String {
    let values: Vec<String> = question.values.iter().map(|v| format!("{:016x}", v.to_bits())).collect();
    format!(
        "group {}\nuser {}\nhost {}\nroles {:?}\nlevel {}\nstates {}\nvalues {}",
        hex(&question.group),
        hex(&question.user),
        hex(&question.host),
        question.roles.iter().map(|role| hex(role)).collect::<Vec<String>>(),
        question.level,
        hex(&question.states),
        values.join(" ")
    )
}
