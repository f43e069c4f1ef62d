//! A file as the grammar gives it; refusals 5 to 10 and 12, and the warnings.

use crate::calculation;
use crate::text::Token;
use crate::{Refusal, Warning, CALCULATION_BYTES, MOST, NAME_BYTES};

#[derive(Debug)]
pub struct File<'a> {
    pub items: Vec<Item<'a>>,
}

#[derive(Debug)]
pub enum Item<'a> {
    Users(Group<'a>),
    Hosts(Group<'a>),
    Access(AccessGroup<'a>),
    /// Its name.
    Unknown(Token<'a>),
}

#[derive(Debug)]
pub struct Group<'a> {
    pub name: Token<'a>,
    pub members: Vec<Token<'a>>,
}

#[derive(Debug)]
pub struct AccessGroup<'a> {
    pub name: Token<'a>,
    pub inputs: Vec<Input<'a>>,
    pub rules: Vec<Rule<'a>>,
}

/// `place` is the INP word's.
#[derive(Debug)]
pub struct Input<'a> {
    pub place: usize,
    pub letter: u8,
    pub name: Token<'a>,
}

/// `place` is the RULE word's.
#[derive(Debug)]
pub struct Rule<'a> {
    pub place: usize,
    pub level: Token<'a>,
    pub permission: Token<'a>,
    pub log: Option<Token<'a>>,
    pub predicates: Vec<Predicate<'a>>,
}

#[derive(Debug)]
pub enum Predicate<'a> {
    Users(Vec<Token<'a>>),
    Hosts(Vec<Token<'a>>),
    /// `place` is the CALC word's.
    Calculation {
        place: usize,
        text: Token<'a>,
    },
    /// Its name.
    Unknown(Token<'a>),
}

/// 0 or 1 by value; none for any other.
pub fn level_value(int: &[u8]) -> Option<u16> {
    let (minus, digits) = match int {
        [b'-', rest @ ..] => (true, rest),
        [b'+', rest @ ..] => (false, rest),
        _ => (false, int),
    };
    let zeros = digits.iter().take_while(|b| **b == b'0').count();
    match &digits[zeros..] {
        b"" => Some(0),
        b"1" if !minus => Some(1),
        _ => None,
    }
}

/// 0 NONE, 1 READ, 2 WRITE.
pub fn permission_value(word: &[u8]) -> Option<u16> {
    match word {
        b"NONE" => Some(0),
        b"READ" => Some(1),
        b"WRITE" => Some(2),
        _ => None,
    }
}

/// 0 NOTRAPWRITE, 1 TRAPWRITE.
pub fn log_value(word: &[u8]) -> Option<u16> {
    match word {
        b"NOTRAPWRITE" => Some(0),
        b"TRAPWRITE" => Some(1),
        _ => None,
    }
}

impl<'a> Rule<'a> {
    /// The UAG names, several lists being one.
    pub fn users(&self) -> Vec<Token<'a>> {
        let lists = self.predicates.iter().filter_map(|p| match p {
            Predicate::Users(names) => Some(names),
            _ => None,
        });
        lists.flatten().copied().collect()
    }

    pub fn hosts(&self) -> Vec<Token<'a>> {
        let lists = self.predicates.iter().filter_map(|p| match p {
            Predicate::Hosts(names) => Some(names),
            _ => None,
        });
        lists.flatten().copied().collect()
    }

    /// The calculations, each with the place of its word.
    fn calculations(&self) -> Vec<(usize, Token<'a>)> {
        let found = self.predicates.iter().filter_map(|p| match p {
            Predicate::Calculation { place, text } => Some((*place, *text)),
            _ => None,
        });
        found.collect()
    }

    pub fn calculation(&self) -> Option<&'a [u8]> {
        self.calculations().first().map(|(_, text)| text.text)
    }

    pub fn is_switched_off(&self) -> bool {
        self.predicates.iter().any(|p| matches!(p, Predicate::Unknown(_)))
    }
}

impl<'a> File<'a> {
    pub fn user_groups(&self) -> Vec<&Group<'a>> {
        self.items.iter().filter_map(|i| if let Item::Users(g) = i { Some(g) } else { None }).collect()
    }

    pub fn host_groups(&self) -> Vec<&Group<'a>> {
        self.items.iter().filter_map(|i| if let Item::Hosts(g) = i { Some(g) } else { None }).collect()
    }

    pub fn access_groups(&self) -> Vec<&AccessGroup<'a>> {
        self.items.iter().filter_map(|i| if let Item::Access(g) = i { Some(g) } else { None }).collect()
    }

    pub fn rules(&self) -> Vec<&Rule<'a>> {
        self.access_groups().into_iter().flat_map(|g| &g.rules).collect()
    }

    /// Refusals 5 to 10 and 12 in the order in which they are judged, each with
    /// the places that have it.
    pub fn causes(&self) -> [(u8, Vec<usize>); 7] {
        [
            (5, self.too_long()),
            (6, self.too_many()),
            (7, self.given_again()),
            (12, self.undefined()),
            (8, self.bad_levels()),
            (9, self.bad_words()),
            (10, self.bad_calculations()),
        ]
    }

    /// The first cause that there is, at its earliest place.
    pub fn refusal(&self) -> Option<Refusal> {
        let (number, places) = self.causes().into_iter().find(|(_, places)| !places.is_empty())?;
        Some(Refusal { number, place: places.into_iter().min()? })
    }

    /// Refusal 5. Permission and log words are no names.
    fn too_long(&self) -> Vec<usize> {
        let mut names = Vec::new();
        let mut calculations = Vec::new();
        for group in self.user_groups().into_iter().chain(self.host_groups()) {
            names.push(group.name);
            names.extend(&group.members);
        }
        for group in self.access_groups() {
            names.push(group.name);
            names.extend(group.inputs.iter().map(|i| i.name));
        }
        for rule in self.rules() {
            names.extend(rule.users());
            names.extend(rule.hosts());
            calculations.extend(rule.calculations().into_iter().map(|(_, text)| text));
        }
        let mut long: Vec<Token> = Vec::new();
        long.extend(names.into_iter().filter(|t| t.text.len() > NAME_BYTES));
        long.extend(calculations.into_iter().filter(|t| t.text.len() > CALCULATION_BYTES));
        long.iter().map(|t| t.place).collect()
    }

    /// Refusal 6: of each kind, the first item past its limit.
    fn too_many(&self) -> Vec<usize> {
        let (users, hosts) = (self.user_groups(), self.host_groups());
        let groups = self.access_groups();
        let rules = self.rules();
        let members = users.iter().chain(&hosts).flat_map(|g| &g.members);
        let references = rules.iter().flat_map(|r| r.users().into_iter().chain(r.hosts()));
        let kinds: [Vec<usize>; 7] = [
            users.iter().map(|g| g.name.place).collect(),
            hosts.iter().map(|g| g.name.place).collect(),
            members.map(|m| m.place).collect(),
            groups.iter().map(|g| g.name.place).collect(),
            groups.iter().flat_map(|g| &g.inputs).map(|i| i.place).collect(),
            rules.iter().map(|r| r.place).collect(),
            references.map(|r| r.place).collect(),
        ];
        let over = kinds.into_iter().zip(MOST).filter_map(|(mut places, most)| {
            places.sort_unstable();
            places.get(most).copied()
        });
        over.collect()
    }

    /// Refusal 7.
    fn given_again(&self) -> Vec<usize> {
        let mut places = Vec::new();
        let named = |t: Token<'a>| (t.text, t.place);
        places.extend(repeated(self.user_groups().iter().map(|g| named(g.name))));
        places.extend(repeated(self.host_groups().iter().map(|g| named(g.name))));
        places.extend(repeated(self.access_groups().iter().map(|g| named(g.name))));
        for group in self.access_groups() {
            places.extend(repeated(group.inputs.iter().map(|i| (i.letter, i.place))));
        }
        for rule in self.rules() {
            places.extend(rule.calculations().get(1).map(|(place, _)| *place));
        }
        places
    }

    /// Refusal 12: the names in rules that no definition has, users and hosts apart.
    fn undefined(&self) -> Vec<usize> {
        let (users, hosts) = (self.user_groups(), self.host_groups());
        let mut places = Vec::new();
        for rule in self.rules() {
            places.extend(missing(&rule.users(), &users));
            places.extend(missing(&rule.hosts(), &hosts));
        }
        places
    }

    /// Refusal 8.
    fn bad_levels(&self) -> Vec<usize> {
        let rules = self.rules().into_iter();
        rules.map(|r| r.level).filter(|t| level_value(t.text).is_none()).map(|t| t.place).collect()
    }

    /// Refusal 9.
    fn bad_words(&self) -> Vec<usize> {
        let mut places = Vec::new();
        for rule in self.rules() {
            if permission_value(rule.permission.text).is_none() {
                places.push(rule.permission.place);
            }
            places.extend(rule.log.filter(|t| log_value(t.text).is_none()).map(|t| t.place));
        }
        places
    }

    /// Refusal 10: no calculation, or a letter without INP in its ASG.
    fn bad_calculations(&self) -> Vec<usize> {
        let mut places = Vec::new();
        for group in self.access_groups() {
            let has_input = |letter| group.inputs.iter().any(|i| i.letter == letter);
            for (_, text) in group.rules.iter().flat_map(|r| r.calculations()) {
                let fits = match calculation::parse(text.text) {
                    Some(tree) => tree.letters().into_iter().all(has_input),
                    None => false,
                };
                if !fits {
                    places.push(text.place);
                }
            }
        }
        places
    }

    /// The warnings by place.
    pub fn warnings(&self) -> Vec<Warning> {
        let mut found = Vec::new();
        for item in &self.items {
            if let Item::Unknown(name) = item {
                found.push(Warning { number: 1, place: name.place });
            }
        }
        for predicate in self.rules().into_iter().flat_map(|r| &r.predicates) {
            if let Predicate::Unknown(name) = predicate {
                found.push(Warning { number: 2, place: name.place });
            }
        }
        found.sort_by_key(|w| w.place);
        found
    }
}

/// The places of those that came before.
fn repeated<K: PartialEq>(items: impl Iterator<Item = (K, usize)>) -> Vec<usize> {
    let mut seen = Vec::new();
    let mut places = Vec::new();
    for (key, place) in items {
        if seen.contains(&key) {
            places.push(place);
        }
        seen.push(key);
    }
    places
}

/// The places of the names that none of the groups has.
fn missing(names: &[Token], groups: &[&Group]) -> Vec<usize> {
    let absent = names.iter().filter(|n| !groups.iter().any(|g| g.name.text == n.text));
    absent.map(|n| n.place).collect()
}
