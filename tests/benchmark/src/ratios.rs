//! The greatest ratios to EPICS, by kind.

use std::collections::BTreeMap;
use std::fmt;

#[derive(Clone, Copy, PartialEq, Eq, PartialOrd, Ord)]
pub enum Kind {
    Load,
    LoadCleared,
    Question,
    QuestionAndCheck,
    /// With so many clients.
    Reading(usize),
    Client,
    Reload,
}

/// Of each kind the greatest ratio of medians and of bests, with its sample.
#[derive(Default)]
pub struct Ratios(BTreeMap<Kind, [(f64, &'static str); 2]>);

impl Ratios {
    pub fn note(&mut self, kind: Kind, sample: &'static str, ratio: Option<[f64; 2]>) {
        let Some(ratio) = ratio else { return };
        let greatest = self.0.entry(kind).or_insert([(0.0, sample); 2]);
        for (known, new) in greatest.iter_mut().zip(ratio) {
            if new > known.0 {
                *known = (new, sample);
            }
        }
    }
}

impl fmt::Display for Ratios {
    fn fmt(&self, f: &mut fmt::Formatter) -> fmt::Result {
        write!(f, "greatest ratios to EPICS (of medians / of bests)")?;
        let mut mark = ':';
        for (kind, [median, best]) in &self.0 {
            let name = match kind {
                Kind::Load => "load".to_string(),
                Kind::LoadCleared => "load, buffer cleared".to_string(),
                Kind::Question => "question".to_string(),
                Kind::QuestionAndCheck => "question, table checked each time".to_string(),
                Kind::Reading(clients) => format!("a reading set, clients {clients}"),
                Kind::Client => "a client added and removed".to_string(),
                Kind::Reload => "reload, clients 64".to_string(),
            };
            write!(f, "{mark} {name} {:.2} ({}) / {:.2} ({})", median.0, median.1, best.0, best.1)?;
            mark = ';';
        }
        Ok(())
    }
}
