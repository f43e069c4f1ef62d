//! A sequence of calls on a register, by `paper` and by the header on its struct;
//! `slices` asks the proved functions the same.

use crate::compare::{first_difference, hex, letter_of, Comparison, Go};
use crate::rooms::{Lending, Rooms};
use crate::slices::{Parts, Slices};
use inputs::question::Names;
use inputs::random::Random;
use inputs::register::{call, reading, Mood};
use library::register::{How, Outcome, Register, Right};
use paper::register::{changed, Rights};
use paper::script::{self, Call, Done};
use paper::{Answer, Reading, Refusal, LETTERS, PLACES};

const NOTHING: Outcome =
    Outcome { refusal: 0, place: 0, needed: 0, warnings: 0, length: 0, changed: 0, agrees: true };

/// A register by both, over a table by both, and what was done with it.
struct Pair {
    paper: paper::Register,
    library: Register,
    ours: Rooms,
    theirs: Rooms,
    rights: Rights,
    said: String,
}

/// Calls until the sequence ends or differs.
pub fn run(random: &mut Random, comparison: &mut Comparison, table: Vec<u8>) -> Go {
    let mood = if random.percent(12) { Mood::Full } else { Mood::Mixed };
    let calls = if matches!(mood, Mood::Full) { random.between(90, 140) } else { random.between(5, 60) };
    let mut pair = Pair::new(random, table);
    if random.percent(60) {
        let first = Call::Load(inputs::register::text(random));
        pair.step(random, comparison, &first)?;
    }
    let mut names = Names::of(&pair.ours.lent);
    for _ in 0..calls {
        if random.percent(2) {
            let mut table = pair.ours.lent;
            inputs::table::damage(random, &mut table);
            pair = Pair::new(random, table);
            names = Names::of(&pair.ours.lent);
        }
        let call = call(random, &names, &mood);
        pair.step(random, comparison, &call)?;
        if matches!(call, Call::Load(_)) {
            names = Names::of(&pair.ours.lent);
        }
    }
    Ok(())
}

impl Pair {
    /// No client; the readings are never heard, or any.
    fn new(random: &mut Random, table: Vec<u8>) -> Pair {
        let mut pair = Pair {
            paper: paper::Register::empty(),
            library: Register::empty(),
            said: format!("table {}", hex(&table)),
            rights: paper::Register::empty().rights(&table),
            ours: Rooms::new(table.clone()),
            theirs: Rooms::new(table),
        };
        if random.percent(25) {
            pair.hear(random);
        }
        pair
    }

    /// Readings laid into both, as the slices have them.
    fn hear(&mut self, random: &mut Random) {
        let (_, states, values) = self.library.parts();
        for (i, to) in self.paper.readings.iter_mut().flatten().enumerate() {
            *to = reading(random);
            (states[i], values[i]) = match *to {
                Reading::NeverHeard => (0, inputs::question::value(random)),
                Reading::Invalid => (*random.pick(&[1, 3, 255]), 1.0),
                Reading::Value(value) => (2, value),
            };
        }
        self.said += &format!("\nstates {}\nvalues {values:?}", hex(states));
    }

    fn parts(&mut self) -> Parts {
        let (places, states, values) = self.library.parts();
        Parts { places: places.to_vec(), states: states.to_vec(), values: values.to_vec() }
    }

    /// One call, and what both say of it. A load may be lent another room: if it is
    /// accepted, the table there is the one in force.
    fn step(&mut self, random: &mut Random, comparison: &mut Comparison, call: &Call) -> Go {
        let lent = &self.ours.lent;
        let checked = random.percent(50) && paper::is_table(lent) && library::is_table(&self.theirs.lent);
        let elsewhere = self.move_elsewhere(random, call);
        let length = self.lent_length(random, call);
        self.said += &format!("\n{}", script::written(call));
        let before = self.parts();
        let mut room = Lending { before: self.theirs.lent[..length].to_vec(), after: Vec::new() };
        let answer = self.paper.call(&mut self.ours.lent[..length], call);
        let stays = elsewhere && answer.is_err();
        let rights = self.paper.rights(if stays { &self.ours.aside } else { &self.ours.lent[..length] });
        let wanted = wanted(call, answer, changed(&self.rights, &rights));
        self.rights = rights;
        let how = How { checked, invalid: *random.pick(&[1, 1, 3, 254, 255]) };
        // SAFETY: if it is checked, the library has just said so of these bytes.
        let said = unsafe { self.library.call(&mut self.theirs.lent[..length], call, how) };
        comparison.count(counted(call, elsewhere, &wanted));
        let state = self.state(wanted.refusal > 0, &before);
        let text = || format!("{}\n{how:?}, lent {length} bytes of the table", self.said);
        comparison.same((wanted, shown(&self.rights), String::new()), (said, self.shown(), state), text)?;
        let after = self.parts();
        room.after = self.theirs.lent[..length].to_vec();
        if elsewhere {
            room = self.ours.as_in_aside(call, answer).unwrap_or(room);
        }
        let found = Slices { random, call, how, room }.differences(&before, &after, &wanted);
        comparison.same(String::new(), found, || format!("{}\nby slices", self.said))?;
        if stays {
            self.ours.swap();
            self.theirs.swap();
        }
        Ok(())
    }

    /// Now and then a load is lent another room, the same by both.
    fn move_elsewhere(&mut self, random: &mut Random, call: &Call) -> bool {
        let moves = self.ours.move_elsewhere(random, call);
        if moves {
            self.said += &format!("\nanother room {}", hex(&self.ours.lent));
            self.theirs.aside.clone_from(&self.ours.lent);
            self.theirs.swap();
        }
        moves
    }

    /// A load is lent all of the table's room; another call that, or the table.
    fn lent_length(&self, random: &mut Random, call: &Call) -> usize {
        let lent = &self.ours.lent;
        let whole = lent.len();
        if matches!(call, Call::Load(_)) || random.percent(50) {
            return whole;
        }
        let stored = lent.get(2..4).map_or(0, |w| usize::from(u16::from_le_bytes([w[0], w[1]])));
        if paper::is_table(lent) {
            stored
        } else {
            random.below(whole + 1)
        }
    }

    /// The rights by the library; those behind the last place are none.
    fn shown(&self) -> String {
        let of = |place: usize| right_text(self.library.right(place));
        let behind = [PLACES, PLACES + 1, 256, 1 << 32, usize::MAX];
        let astray: Vec<usize> = behind.into_iter().filter(|place| of(*place) != "N--").collect();
        let mut rights: Vec<String> = (0..PLACES).map(of).collect();
        rights.extend(astray.iter().map(|place| format!("and one at {place}")));
        rights.join(" ")
    }

    /// What is wrong with the bytes after a call, or nothing.
    fn state(&mut self, refused: bool, before: &Parts) -> String {
        if let Some(found) = first_difference(&self.ours.lent, &self.theirs.lent) {
            return format!("table at {found:?}");
        }
        if let Some(found) = first_difference(&self.ours.aside, &self.theirs.aside) {
            return format!("the room that is not lent at {found:?}");
        }
        let after = self.parts();
        if refused {
            return after.differs_from(before).map_or(String::new(), |p| format!("refused, but writes {p}"));
        }
        let readings = self.paper.readings.iter().flatten().enumerate();
        let wrong =
            readings.into_iter().find(|(i, r)| !same_reading(**r, after.states[*i], after.values[*i]));
        wrong.map_or(String::new(), |(i, r)| {
            let (state, value) = (after.states[i], after.values[i]);
            format!("group {} letter {}: {r:?}, not {state} {value}", i / LETTERS, i % LETTERS)
        })
    }
}

/// As the header is to answer.
fn wanted(call: &Call, answer: Result<Done, Refusal>, changed: u64) -> Outcome {
    let place = match call {
        Call::Change(place, _) | Call::Remove(place) => *place as u64,
        _ => 0,
    };
    match answer {
        Ok(Done::Loaded(l)) => {
            Outcome { length: l.length as u64, warnings: l.warnings as u64, changed, ..NOTHING }
        }
        Ok(Done::At(place)) => Outcome { place: place as u64, changed, ..NOTHING },
        Ok(Done::Nothing) => Outcome { place, changed, ..NOTHING },
        Err(Refusal { number: 11, place }) => Outcome { refusal: 11, needed: place as u64, ..NOTHING },
        Err(Refusal { number, place }) => Outcome { refusal: number.into(), place: place as u64, ..NOTHING },
    }
}

fn same_reading(reading: Reading, state: u8, value: f64) -> bool {
    match reading {
        Reading::NeverHeard => state == 0,
        Reading::Invalid => state != 0 && state != 2,
        Reading::Value(v) => state == 2 && (v.to_bits() == value.to_bits() || v.is_nan() && value.is_nan()),
    }
}

/// For the count of answers.
fn counted(call: &Call, elsewhere: bool, wanted: &Outcome) -> String {
    let room = if elsewhere { " into another room" } else { "" };
    let told = if wanted.changed > 0 { " changes rights" } else { "" };
    format!("{}{room} {:2}{told}", name(call), wanted.refusal)
}

fn name(call: &Call) -> &'static str {
    match call {
        Call::Load(_) => "register load",
        Call::Add(_) => "register add",
        Call::Change(..) => "register change",
        Call::Remove(_) => "register remove",
        Call::Set(..) => "register set",
    }
}

fn shown(rights: &Rights) -> String {
    let of = |a: &Answer| right_text(Right { access: a.access as u64, trap: a.trap, letter: letter_of(a) });
    rights.iter().map(of).collect::<Vec<String>>().join(" ")
}

/// Access, trap flag and letter, or what stands in its place.
fn right_text(right: Right) -> String {
    let access =
        ["N", "R", "W"].get(right.access as usize).map_or(format!("{}?", right.access), |a| a.to_string());
    let letter = if right.letter == 0 { "-".to_string() } else { [right.letter].escape_ascii().to_string() };
    format!("{access}{}{letter}", if right.trap { 't' } else { '-' })
}
