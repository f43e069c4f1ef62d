//! The register beside EPICS's clients: a reading set with so many clients of
//! its group, a client added and removed, a reload, a right.

use crate::epics::clients::Clients;
use crate::measure::Timed;
use crate::ratios::{Kind, Ratios};
use crate::{letter_of, Prepared, LEVEL, VALUES};
use library::register::{How, Outcome, Ready, Register, Right};
use paper::script::Call;
use paper::{Access, Client, Reading, PLACES, TABLE_BYTES};
use std::hint::black_box;

/// A reads these in turns: every client gains and loses WRITE, or none does.
const CHANGING: [f64; 2] = [VALUES[0], 0.5];
const STILL: [f64; 2] = [VALUES[0], 0.2];
const A: u32 = 0;

/// A register with clients of the sample's names over the sample's table.
struct Held {
    register: Register,
    room: Vec<u8>,
    length: usize,
    how: How,
}

impl Held {
    /// A and B are heard, if the group has them.
    fn new(prepared: &Prepared, clients: usize, checked: bool) -> Held {
        let (register, room) = (Register::empty(), vec![0; TABLE_BYTES]);
        let mut held = Held { register, room, length: TABLE_BYTES, how: How { checked, invalid: 1 } };
        held.length = held.accepted(&Call::Load(prepared.text().to_vec())).length as usize;
        for _ in 0..clients {
            held.accepted(&prepared.add());
        }
        for (letter, value) in VALUES.into_iter().enumerate() {
            let refusal = held.make(&mut Ready::new(&prepared.set(letter as u32, value), held.how)).refusal;
            assert!(refusal == 0 || refusal == 22);
        }
        held
    }

    fn make(&mut self, ready: &mut Ready) -> Outcome {
        // SAFETY: the bytes are those of an accepted load; at first they are any, for a load.
        unsafe { self.register.make(&mut self.room[..self.length], ready) }
    }

    fn accepted(&mut self, call: &Call) -> Outcome {
        let outcome = self.make(&mut Ready::new(call, self.how));
        assert_eq!(outcome.refusal, 0);
        outcome
    }

    fn rights(&self, clients: usize) -> Vec<Right> {
        (0..clients).map(|place| self.register.right(place)).collect()
    }
}

/// EPICS has no letter.
fn by_epics(right: Right) -> (u64, bool) {
    (right.access, right.trap)
}

impl Prepared<'_> {
    pub fn register(&self, ratios: &mut Ratios) {
        self.rights();
        for clients in [1, 16, PLACES] {
            let row = self.readings("rights change", clients, CHANGING, true);
            ratios.note(Kind::Reading(clients), self.sample.name, row);
            let row = self.readings("no right changes", clients, STILL, true);
            ratios.note(Kind::Reading(clients), self.sample.name, row);
        }
        self.readings("table checked", PLACES, CHANGING, false);
        for others in [0, PLACES - 1] {
            ratios.note(Kind::Client, self.sample.name, self.entries(others));
        }
        ratios.note(Kind::Reload, self.sample.name, self.reloads());
    }

    fn add(&self) -> Call {
        let [group, user, host] =
            [&self.sample.group, &self.sample.user, &self.sample.host].map(|name| name.clone().into_bytes());
        Call::Add(Client { group, user, host, level: LEVEL })
    }

    fn set(&self, letter: u32, value: f64) -> Call {
        Call::Set(self.sample.group.clone().into_bytes(), letter, Reading::Value(value))
    }

    fn epics_clients(&self, clients: usize) -> Option<Clients> {
        Some(Clients::new(self.epics?, self.epics_asked(), clients).expect("EPICS takes the clients"))
    }

    /// What `paper` answers to the sample's client if A reads the value.
    fn wanted(&self, value: f64) -> Right {
        let mut question = self.question();
        question.readings[A as usize] = Reading::Value(value);
        let answer = paper::decide(&self.table, &question).expect("it is answered");
        Right { access: answer.access as u64, trap: answer.trap, letter: letter_of(&answer) }
    }

    fn rights(&self) {
        let held = Held::new(self, PLACES, true);
        assert_eq!(held.rights(PLACES), [self.wanted(VALUES[0]); PLACES]);
        let look = Timed::many(PLACES, move || {
            for place in 0..PLACES {
                black_box(held.register.right(black_box(place)));
            }
        });
        self.beside("right of a place", "", look, None);
    }

    /// All must give the clients the same rights at both values, and tell of the changes.
    fn agree_on_rights(&self, held: &mut Held, epics: Option<&Clients>, clients: usize, values: [f64; 2]) {
        let moves = self.wanted(values[0]) != self.wanted(values[1]);
        assert_eq!(moves, values == CHANGING, "the sample's client is moved by A");
        let all = u64::MAX >> (PLACES - clients);
        for value in [values[1], values[0], values[1], values[0]] {
            let changed = held.accepted(&self.set(A, value)).changed;
            assert_eq!(changed, if moves { all } else { 0 });
            let rights = vec![self.wanted(value); clients];
            assert_eq!(held.rights(clients), rights);
            if let Some(known) = epics {
                known.hear(A as usize, value);
                assert_eq!(known.rights(), vec![by_epics(self.wanted(value)); clients]);
            }
        }
    }

    fn readings(&self, name: &str, clients: usize, values: [f64; 2], checked: bool) -> Option<[f64; 2]> {
        let mut held = Held::new(self, clients, checked);
        let known = self.epics_clients(clients);
        self.agree_on_rights(&mut held, known.as_ref(), clients, values);
        let calls = values.map(|value| self.set(A, value));
        let mut ready = [Ready::new(&calls[0], held.how), Ready::new(&calls[1], held.how)];
        let mut turn = 0;
        let library = Timed::new(move || {
            turn ^= 1;
            black_box(held.make(black_box(&mut ready[turn])));
        });
        let mut turn = 0;
        let epics = known.map(|known| {
            Timed::new(move || {
                turn ^= 1;
                known.hear(A as usize, black_box(values[turn]));
            })
        });
        self.beside(&format!("a reading set, clients {clients}, {name}"), "asComputeAsg", library, epics)
    }

    fn entries(&self, others: usize) -> Option<[f64; 2]> {
        let mut held = Held::new(self, others, true);
        let mut known = self.epics_clients(others);
        let calls = [self.add(), Call::Remove(others)];
        let wanted = self.wanted(VALUES[0]);
        assert_eq!((wanted.access, held.accepted(&calls[0]).place), (Access::Write as u64, others as u64));
        assert_eq!(held.register.right(others), wanted);
        held.accepted(&calls[1]);
        if let Some(known) = &mut known {
            assert!(known.add());
            assert_eq!(known.rights().last(), Some(&by_epics(wanted)));
            known.remove();
        }
        let mut ready = [Ready::new(&calls[0], held.how), Ready::new(&calls[1], held.how)];
        let library = Timed::new(move || {
            for call in &mut ready {
                black_box(held.make(black_box(call)));
            }
        });
        let epics = known.map(|mut known| {
            Timed::new(move || {
                black_box(known.add());
                known.remove();
            })
        });
        let name = format!("a client added and removed, others {others}");
        self.beside(&name, "asAddClient, asRemoveClient", library, epics)
    }

    fn reloads(&self) -> Option<[f64; 2]> {
        let mut held = Held::new(self, PLACES, true);
        held.length = TABLE_BYTES;
        let known = self.epics_clients(PLACES);
        let call = Call::Load(self.text().to_vec());
        let mut ready = Ready::new(&call, held.how);
        let library = Timed::new(move || {
            black_box(held.make(black_box(&mut ready)));
        });
        let epics = self.epics.zip(known).map(|(epics, known)| {
            let text = self.epics_text();
            Timed::new(move || {
                black_box(epics.load(&text));
                black_box(&known);
            })
        });
        self.beside("reload, clients 64", "asInitMem", library, epics)
    }
}
