//! The question of two libraries in turns, as shared objects: that of the commit
//! before and today's. `benchmark before OLD NEW [ROUNDS]`.

use crate::files::{long, places, samples, Sample};
use crate::measure::{times, Timed};
use crate::shared::Shared;
use crate::{column, LEVEL, VALUES};
use paper::{LETTERS, TABLE_BYTES};
use std::ffi::CStr;
use std::hint::black_box;

/// What the function on a checked table was called: each form of answer has a name.
const NAMES: [&CStr; 2] = [c"hrazvanut_abi_decide_letter_checked", c"hrazvanut_abi_decide_roles_checked"];

/// A question may cost so many times what it did: less is noise.
const MOST: f64 = 1.05;

type Part = *const u8;

type Decide = unsafe extern "C" fn(
    Part,
    usize,
    Part,
    usize,
    Part,
    usize,
    Part,
    usize,
    Part,
    usize,
    Part,
    usize,
    u32,
    Part,
    usize,
    *const f64,
    usize,
) -> u64;

/// A question on the table of a sample.
struct Asked<'a> {
    sample: &'a Sample,
    table: &'a [u8],
    states: &'a [u8],
    values: &'a [f64],
}

impl Asked<'_> {
    /// Access and trap flag, which each form has in the same bits.
    fn right(&self, decide: Decide) -> u64 {
        self.put(decide) & 7
    }

    fn put(&self, decide: Decide) -> u64 {
        let Asked { sample, table, states, values } = self;
        let (group, user, host) = (&sample.group, &sample.user, &sample.host);
        let none = [0; 1];
        // SAFETY: each pointer is a slice's own, with its length, or with 0; the table is a load's.
        unsafe {
            decide(
                table.as_ptr(),
                table.len(),
                group.as_ptr(),
                group.len(),
                user.as_ptr(),
                user.len(),
                host.as_ptr(),
                host.len(),
                none.as_ptr(),
                0,
                none.as_ptr(),
                0,
                LEVEL,
                states.as_ptr(),
                states.len(),
                values.as_ptr(),
                values.len(),
            )
        }
    }
}

fn open(path: &str) -> Decide {
    let library = Shared::open(path).unwrap_or_else(|| panic!("{path}: it cannot be opened"));
    // SAFETY: under either name it has this type.
    let found = NAMES.iter().find_map(|name| unsafe { library.function(name) });
    found.unwrap_or_else(|| panic!("{path} has no question"))
}

/// The ratios of medians and of bests, printed beside the times.
fn row(name: &str, asked: &Asked, decides: [Decide; 2], rounds: usize) -> [f64; 2] {
    let [one, two] = decides.map(|decide| asked.right(decide));
    assert_eq!(one, two, "{name}: they must agree");
    let timed = decides.map(|decide| {
        Timed::new(move || {
            black_box(black_box(asked).put(decide));
        })
    });
    let times = times(&mut Vec::from(timed), rounds);
    let ratio = [times[1].median / times[0].median, times[1].best / times[0].best];
    println!("{name:32}{}{}{:8.2}{:7.2}", column(&times[0]), column(&times[1]), ratio[0], ratio[1]);
    ratio
}

/// A row with all readings good, and one with none heard.
fn rows(sample: &Sample, decides: [Decide; 2], rounds: usize) -> [[f64; 2]; 2] {
    let mut table = vec![0; TABLE_BYTES];
    let loaded = paper::load(sample.text.as_bytes(), &mut table).expect("the samples are right");
    let mut values = [1.0; LETTERS];
    values[..VALUES.len()].copy_from_slice(&VALUES);
    [("all readings good", 2), ("no reading heard", 0)].map(|(name, state)| {
        let states = [state; LETTERS];
        let asked = Asked { sample, table: &table[..loaded.length], states: &states, values: &values };
        row(&format!("{}, {name}", sample.name), &asked, decides, rounds)
    })
}

pub fn run(words: &[String]) {
    let (old, new, rounds) = match words {
        [old, new] => (old, new, 501),
        [old, new, rounds] => (old, new, rounds.parse().expect("a number of rounds")),
        _ => panic!("usage: benchmark before OLD NEW [ROUNDS]"),
    };
    let decides = [open(old), open(new)];
    println!("nanoseconds, median and best of {rounds} batches in turns; ratios: today / before");
    let head = |name: &str| format!("{name:>11}{:>9}", "best");
    println!("{:32}{}{}   ratio   best", "", head("before"), head("today"));
    let mut greatest = [[0f64; 2]; 2];
    for sample in samples().iter().chain(&[long(), places()]) {
        for (known, new) in greatest.iter_mut().flatten().zip(rows(sample, decides, rounds).as_flattened()) {
            *known = known.max(*new);
        }
    }
    let [good, bad] = greatest.map(|[median, best]| format!("{median:.2} / {best:.2}"));
    println!("greatest (of medians / of bests): all readings good {good}; no reading heard {bad}");
    std::process::exit((greatest[0][1] > MOST).into());
}
