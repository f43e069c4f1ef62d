//! Clients that stay known to EPICS, as a gateway's do.

use super::{Asked, Client, Epics, Member};
use std::ptr::null_mut;

/// Clients of one group, all of the same names. They have no callbacks, so that
/// EPICS tells nobody whose access changed.
pub struct Clients {
    epics: Epics,
    /// EPICS has pointers into it.
    asked: Asked,
    member: *mut Member,
    clients: Vec<*mut Client>,
}

impl Clients {
    pub fn new(epics: Epics, asked: Asked, count: usize) -> Option<Clients> {
        let mut known = Clients { epics, asked, member: null_mut(), clients: Vec::new() };
        // SAFETY: what EPICS makes is handed back to it when this is dropped.
        unsafe { epics.open_group(&known.asked, &mut known.member)? };
        (0..count).all(|_| known.add()).then_some(known)
    }

    /// asAddClient; whether it accepts.
    pub fn add(&mut self) -> bool {
        let mut client = null_mut();
        // SAFETY: the names live as long as the client.
        let added = unsafe { self.epics.connect(&mut self.asked, self.member, &mut client) };
        self.clients.extend(added.map(|()| client));
        added.is_some()
    }

    /// asRemoveClient of the last.
    pub fn remove(&mut self) {
        if let Some(mut client) = self.clients.pop() {
            // SAFETY: EPICS made it, and it is removed once.
            unsafe { (self.epics.remove_client)(&mut client) };
        }
    }

    /// A reading, and asComputeAsg: what asCa does at an event.
    pub fn hear(&self, letter: usize, value: f64) {
        // SAFETY: the group has values for A to L; EPICS made it, and a load puts another in its place.
        unsafe {
            let group = (*self.member).group;
            (*group).bad &= !(1 << letter);
            *(*group).values.add(letter) = value;
            (*group).changed |= 1 << letter;
            (self.epics.compute_group)(group);
        }
    }

    /// asCompute of the first: its rules anew, with the calculations' last results.
    pub fn compute(&self) -> u8 {
        // SAFETY: EPICS made it, and it stands.
        unsafe {
            (self.epics.compute)(self.clients[0]);
            (*self.clients[0]).access as u8
        }
    }

    /// Access and trap flag of each.
    pub fn rights(&self) -> Vec<(u64, bool)> {
        // SAFETY: as above.
        let right = |client: &*mut Client| unsafe { ((**client).access as u64, (**client).trap != 0) };
        self.clients.iter().map(right).collect()
    }
}

impl Drop for Clients {
    fn drop(&mut self) {
        while !self.clients.is_empty() {
            self.remove();
        }
        if !self.member.is_null() {
            // SAFETY: EPICS made it, and it has no client.
            unsafe { (self.epics.remove_member)(&mut self.member) };
        }
    }
}
