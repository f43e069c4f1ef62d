//! One call on a register by the proved function, on slices that are longer or
//! shorter than the header's.

use crate::rooms::Lending;
use inputs::random::Random;
use library::register::{number, right_number, How, Lent, Outcome};
use paper::script::Call;
use paper::PLACES;

/// A word that no call has written.
const UNTOUCHED: u64 = 0xa5a5_5a5a_0ff0_1234;

/// The three slices of a register.
#[derive(Clone)]
pub struct Parts {
    pub places: Vec<u8>,
    pub states: Vec<u8>,
    pub values: Vec<f64>,
}

impl Parts {
    /// Which slice is another, if any; values by their bits.
    pub fn differs_from(&self, other: &Parts) -> Option<&'static str> {
        let bits = |parts: &Parts| parts.values.iter().map(|v| v.to_bits()).collect::<Vec<u64>>();
        let slices = [
            ("places", self.places == other.places),
            ("states", self.states == other.states),
            ("values", bits(self) == bits(other)),
        ];
        slices.into_iter().find(|(_, same)| !same).map(|(name, _)| name)
    }
}

/// The same call by the proved function, on slices that are longer or shorter, and
/// what is to become of the table's room.
pub struct Slices<'a> {
    pub random: &'a mut Random,
    pub call: &'a Call,
    pub how: How,
    pub room: Lending,
}

impl Slices<'_> {
    /// What is wrong, or nothing: on longer slices all is as by the header; if
    /// one is too short, the call is refused with 34.
    pub fn differences(mut self, before: &Parts, after: &Parts, wanted: &Outcome) -> String {
        let mut lent = before.clone();
        lent.places.resize(before.places.len() + self.random.below(9), 0xa5);
        lent.states.resize(before.states.len() + self.random.below(9), 0xa5);
        lent.values.resize(before.values.len() + self.random.below(3), 7.5);
        let mut expected = lent.clone();
        let short = self.random.percent(25);
        if short {
            self.shorten(&mut lent, before);
            expected = lent.clone();
        }
        let words = usize::from(self.random.percent(80));
        if !short {
            expected.places[..after.places.len()].copy_from_slice(&after.places);
            expected.states[..after.states.len()].copy_from_slice(&after.states);
            expected.values[..after.values.len()].copy_from_slice(&after.values);
        }
        let written = words == 1 && !short && wanted.refusal == 0;
        let packed = if short { 34 << 48 } else { packed(self.call, wanted) };
        let bits = [if written { wanted.changed } else { UNTOUCHED }, UNTOUCHED];
        if short {
            self.room.after.clone_from(&self.room.before);
        }
        let found = self.compare(lent, &expected, (packed, bits), words);
        if found.is_empty() {
            rights_of_short(&after.places)
        } else {
            found
        }
    }

    /// One slice that the call is lent is too short, by one or by more.
    fn shorten(&mut self, lent: &mut Parts, whole: &Parts) {
        let by = if self.random.percent(50) { 1 } else { self.random.between(1, whole.values.len()) };
        let slices = match self.call {
            Call::Remove(_) => 1,
            Call::Load(_) => 2,
            _ => 3,
        };
        match self.random.below(slices) {
            0 => lent.places.truncate(whole.places.len() - by),
            1 => lent.states.truncate(whole.states.len() - by),
            _ => lent.values.truncate(whole.values.len() - by),
        }
    }

    fn compare(self, mut lent: Parts, expected: &Parts, wanted: (u64, [u64; 2]), words: usize) -> String {
        let Lending { before: mut table, after } = self.room;
        let mut bits = [UNTOUCHED; 2];
        let mut slices = Lent {
            places: &mut lent.places,
            states: &mut lent.states,
            values: &mut lent.values,
            changed: &mut bits[..words],
        };
        // SAFETY: if it is checked, the library has said so of these bytes.
        let answer = unsafe { number(&mut slices, &mut table, self.call, self.how) };
        if (answer, bits) != wanted || table != after {
            let same = table == after;
            return format!("{answer:x} {bits:x?}, not {:x} {:x?}; table {same}", wanted.0, wanted.1);
        }
        lent.differs_from(expected).map_or(String::new(), |part| format!("{part} differ"))
    }
}

/// Places that are too short grant nothing.
fn rights_of_short(places: &[u8]) -> String {
    let short = &places[..places.len() - 1];
    let granted = (0..PLACES).find(|place| right_number(short, *place) != 0);
    granted.map_or(String::new(), |place| format!("a right at {place} of a short slice"))
}

/// The number that the proved function answers where the header answers this.
fn packed(call: &Call, wanted: &Outcome) -> u64 {
    let first = match call {
        Call::Add(_) => wanted.place,
        Call::Load(_) => wanted.place + wanted.needed + wanted.length,
        _ => 0,
    };
    first | wanted.warnings << 32 | wanted.refusal << 48
}
