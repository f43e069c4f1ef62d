//! The register of document 02's first request. It knows who stands where and
//! what was last read; each right is asked for anew.

use crate::calculation::{Reading, Readings};
use crate::question::{answering_group, decide_checked, first_input, named_group, Answer, Question, NOTHING};
use crate::table::{is_table, View, ACCESS_GROUPS};
use crate::{load, Loaded, Refusal, LETTERS, MOST, NAME_BYTES, PLACES};

#[derive(Clone, Debug, Default, PartialEq, Eq)]
pub struct Client {
    pub group: Vec<u8>,
    pub user: Vec<u8>,
    pub host: Vec<u8>,
    pub level: u32,
}

#[derive(Clone, Debug)]
pub struct Register {
    /// By place.
    pub clients: Vec<Option<Client>>,
    /// Of each access group, by its number in the table.
    pub readings: Vec<Readings>,
}

/// The right of each place.
pub type Rights = [Answer; PLACES];

const NEVER_HEARD: Readings = [Reading::NeverHeard; LETTERS];

impl Client {
    /// 23 a name over 60 bytes, then 21.
    fn fits(&self) -> Result<(), u8> {
        if [&self.group, &self.user, &self.host].iter().any(|name| name.len() > NAME_BYTES) {
            return Err(23);
        }
        if self.level > 1 {
            return Err(21);
        }
        Ok(())
    }
}

impl Register {
    /// No client, every reading never heard.
    pub fn empty() -> Register {
        Register { clients: vec![None; PLACES], readings: vec![NEVER_HEARD; MOST[ACCESS_GROUPS]] }
    }

    fn has_client(&self, place: usize) -> bool {
        self.clients.get(place).is_some_and(Option::is_some)
    }

    /// The lowest free place, or 23, 21, 24.
    pub fn add(&mut self, client: &Client) -> Result<usize, u8> {
        client.fits()?;
        let place = self.clients.iter().position(Option::is_none).ok_or(24)?;
        self.clients[place] = Some(client.clone());
        Ok(place)
    }

    /// 25 no client there, then 23, 21.
    pub fn change(&mut self, place: usize, client: &Client) -> Result<(), u8> {
        if !self.has_client(place) {
            return Err(25);
        }
        client.fits()?;
        self.clients[place] = Some(client.clone());
        Ok(())
    }

    pub fn remove(&mut self, place: usize) -> Result<(), u8> {
        if !self.has_client(place) {
            return Err(25);
        }
        self.clients[place] = None;
        Ok(())
    }

    /// One reading of the group so named, never on to DEFAULT: 20, then 22.
    pub fn set(&mut self, table: &[u8], group: &[u8], letter: u32, reading: Reading) -> Result<(), u8> {
        if !is_table(table) {
            return Err(20);
        }
        let view = View::open(table).ok_or(20)?;
        let group = named_group(&view, group).ok_or(22)?;
        first_input(&view, group, letter).ok_or(22)?;
        self.readings[group][letter as usize] = reading;
        Ok(())
    }

    /// A good load makes every reading never heard; a refused one nothing.
    pub fn load(&mut self, text: &[u8], table: &mut [u8]) -> Result<Loaded, Refusal> {
        let loaded = load(text, table)?;
        self.readings.fill(NEVER_HEARD);
        Ok(loaded)
    }

    /// While the bytes are no table, and at a free place: nothing.
    pub fn rights(&self, table: &[u8]) -> Rights {
        if !is_table(table) {
            return [NOTHING; PLACES];
        }
        let view = View::open(table).expect("it is a table");
        let right = |client: &Client| self.right_of(&view, table, client);
        std::array::from_fn(|place| self.clients[place].as_ref().map_or(NOTHING, right))
    }

    /// What a question with the answering group's readings, and no roles, would
    /// answer.
    fn right_of(&self, view: &View, table: &[u8], client: &Client) -> Answer {
        let group = answering_group(view, &client.group);
        let question = Question {
            group: &client.group,
            user: &client.user,
            host: &client.host,
            roles: &[],
            level: client.level,
            readings: group.map_or(NEVER_HEARD, |number| self.readings[number]),
        };
        decide_checked(table, &question).expect("a client's level is 0 or 1")
    }
}

/// A bit for each place whose right differs.
pub fn changed(before: &Rights, after: &Rights) -> u64 {
    (0..PLACES).filter(|place| before[*place] != after[*place]).map(|place| 1 << place).sum()
}
