//! Two rooms for tables, one of which a call is lent. A load may be lent either.

use inputs::random::Random;
use paper::script::{Call, Done};
use paper::Refusal;

/// The table in force stands in the one that is lent, but while a load is lent the
/// other: there it goes on if the load is accepted.
pub struct Rooms {
    pub lent: Vec<u8>,
    pub aside: Vec<u8>,
}

/// A room before and after a call.
pub struct Lending {
    pub before: Vec<u8>,
    pub after: Vec<u8>,
}

impl Rooms {
    pub fn new(lent: Vec<u8>) -> Rooms {
        Rooms { lent, aside: Vec::new() }
    }

    pub fn swap(&mut self) {
        std::mem::swap(&mut self.lent, &mut self.aside);
    }

    /// Now and then a load is lent the other room, as it is or made anew.
    pub fn move_elsewhere(&mut self, random: &mut Random, call: &Call) -> bool {
        let Call::Load(text) = call else { return false };
        if random.percent(55) {
            return false;
        }
        if self.aside.is_empty() || random.percent(70) {
            self.aside = inputs::register::room(random, &self.lent, text);
        }
        self.swap();
        true
    }

    /// The room that is not lent, before and after the same load, if it answers alike
    /// there: then all else is alike too.
    pub fn as_in_aside(&self, call: &Call, answer: Result<Done, Refusal>) -> Option<Lending> {
        let mut room = Lending { before: self.aside.clone(), after: self.aside.clone() };
        let there = paper::Register::empty().call(&mut room.after, call);
        (there == answer).then_some(room)
    }
}
