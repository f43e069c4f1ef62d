//! Calls on a register whose places are any bytes. `paper` cannot say who stands
//! there; what holds of each call all the same is held.

use crate::compare::{hex, Comparison, Go};
use crate::rooms::{Lending, Rooms};
use crate::slices::{Parts, Slices};
use inputs::question::Names;
use inputs::random::Random;
use inputs::register::{call, Mood};
use library::register::{How, Outcome, Register, Right};
use paper::script::{written, Call, Done};
use paper::{Refusal, PLACES};

pub fn run(random: &mut Random, comparison: &mut Comparison, table: Vec<u8>) -> Go {
    let names = Names::of(&table);
    let mut register = Register::empty();
    let mut rooms = Rooms::new(table);
    fill(random, &names, &mut register, &mut rooms.lent);
    for _ in 0..random.between(1, 12) {
        let call = call(random, &names, &Mood::Mixed);
        step(random, comparison, &mut register, &mut rooms, &call)?;
    }
    Ok(())
}

/// Any bytes, or some clients with some bytes changed.
fn fill(random: &mut Random, names: &Names, register: &mut Register, table: &mut [u8]) {
    if random.percent(40) {
        register.parts().0.fill_with(|| random.byte());
        return;
    }
    let how = How { checked: false, invalid: 1 };
    for _ in 0..random.between(1, 80) {
        // SAFETY: it is not checked.
        unsafe { register.call(table, &call(random, names, &Mood::Full), how) };
    }
    let places = register.parts().0;
    for _ in 0..random.between(1, 200) {
        let most = if random.percent(50) { places.len() } else { 2000 };
        let place = random.below(most);
        places[place] = if random.percent(50) { random.byte() } else { places[place] ^ 1 << random.below(8) };
    }
}

fn rights(register: &Register) -> Vec<Right> {
    (0..PLACES).map(|place| register.right(place)).collect()
}

fn parts(register: &mut Register) -> Parts {
    let (places, states, values) = register.parts();
    Parts { places: places.to_vec(), states: states.to_vec(), values: values.to_vec() }
}

/// A load may be lent another room: if it is accepted, the table there is the one in
/// force.
fn step(
    r: &mut Random,
    comparison: &mut Comparison,
    register: &mut Register,
    rooms: &mut Rooms,
    call: &Call,
) -> Go {
    let elsewhere = rooms.move_elsewhere(r, call);
    let (before, stood, lent) = (parts(register), rights(register), rooms.lent.clone());
    let how = How { checked: r.percent(50) && library::is_table(&rooms.lent), invalid: 1 };
    // SAFETY: if it is checked, the library has just said so of these bytes.
    let outcome = unsafe { register.call(&mut rooms.lent, call, how) };
    let (after, stand) = (parts(register), rights(register));
    let table = rooms.lent.clone();
    let room = if elsewhere { " into another room" } else { "" };
    comparison.count(format!("register of any bytes {:2}{room}", outcome.refusal));
    let by_paper = paper::Register::empty().call(&mut lent.clone(), call);
    let mut room = Lending { before: lent.clone(), after: table.clone() };
    if elsewhere {
        room = rooms.as_in_aside(call, by_paper).unwrap_or(room);
    }
    let wrong = [
        refusal(call, by_paper, &outcome),
        told(&stood, &stand, &outcome),
        bytes(call, (&before, &after), (&lent, &table), &outcome),
        Slices { random: r, call, how, room }.differences(&before, &after, &outcome),
    ];
    let text = || format!("{} on places\n{}\ntable {}", written(call), hex(&before.places), hex(&lent));
    comparison.same([const { String::new() }; 4], wrong, text)?;
    if elsewhere && outcome.refusal > 0 {
        rooms.swap();
    }
    Ok(())
}

/// The refusals that hang on what is given alone, and those that are left.
fn refusal(call: &Call, by_paper: Result<Done, Refusal>, outcome: &Outcome) -> String {
    let by_paper = by_paper.map_or_else(|Refusal { number, .. }| number, |_| 0);
    let possible: &[u64] = match (call, by_paper) {
        (Call::Add(_), 0) => &[0, 24],
        (Call::Change(place, _) | Call::Remove(place), _) if *place >= PLACES => &[25],
        (Call::Change(..), _) => &[0, 21, 23, 25],
        (Call::Remove(_), _) => &[0, 25],
        _ => &[by_paper.into()],
    };
    if possible.contains(&outcome.refusal) {
        return String::new();
    }
    format!("refused {}, not one of {possible:?}", outcome.refusal)
}

/// Each right is one, and the changed places are those whose rights are others.
fn told(before: &[Right], after: &[Right], outcome: &Outcome) -> String {
    let bits: u64 = (0..PLACES).filter(|p| before[*p] != after[*p]).map(|p| 1 << p).sum();
    if bits != outcome.changed {
        return format!("changed {:x}, not {bits:x}", outcome.changed);
    }
    let known = |right: &Right| right.access <= 2 && matches!(right.letter, 0 | b'A'..=b'U');
    let strange = before.iter().chain(after).find(|right| !known(right));
    strange.map_or(String::new(), |right| format!("{right:?}"))
}

/// Refused: no byte is another. A load writes its table and forgets readings;
/// nothing else writes a table, and only a reading writes readings.
fn bytes(
    call: &Call,
    (before, after): (&Parts, &Parts),
    (lent, table): (&[u8], &[u8]),
    outcome: &Outcome,
) -> String {
    if outcome.refusal > 0 {
        let same = lent == table && after.differs_from(before).is_none();
        return if same { String::new() } else { "refused, but writes".to_string() };
    }
    let mut room = lent.to_vec();
    let heard = match call {
        Call::Load(text) => {
            let length = paper::load(text, &mut room).map_or(0, |l| l.length as u64);
            length == outcome.length && after.states.iter().all(|state| *state == 0)
        }
        Call::Set(..) => after.states.iter().zip(&before.states).filter(|(a, b)| a != b).count() < 2,
        _ => after.states == before.states,
    };
    let same = room == table && heard;
    if same {
        String::new()
    } else {
        format!("the bytes of {}", written(call))
    }
}
