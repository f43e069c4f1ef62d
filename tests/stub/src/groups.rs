//! A file judged by its groups, with the faults 125 to 145, 147 and 148; 150 is of
//! a table whose groups are not defined.

use crate::fault;
use paper::file::{File, Group, Item, Predicate, Rule};
use paper::table::{self, View, RULES, UNDEFINED};
use paper::text::{self, Kind, Token};
use paper::{grammar, Loaded, Refusal, Warning};

/// As `paper::read`, with the faults that take another order.
fn read(text: &[u8]) -> Result<File<'_>, Refusal> {
    judged(
        text,
        match () {
            () if fault(130) => Some(2), // behind 8
            () if fault(131) => Some(0), // before 7
            () if fault(142) => Some(3), // behind 9
            () if fault(143) => Some(4), // behind 10
            () if fault(138) || fault(144) => None,
            () => Some(1),
        },
    )
}

/// With 12 behind so many of 7 to 10, or without it. 1 to 6 stand before.
fn judged(text: &[u8], behind: Option<usize>) -> Result<File<'_>, Refusal> {
    let judged = paper::read(text);
    if judged.as_ref().is_err_and(|refusal| refusal.number < 7) {
        return judged;
    }
    let tokens = text::tokens(text).expect("it is read");
    let file = grammar::parse(&tokens, text.len()).expect("it is read");
    let causes = file.causes().into_iter().filter(|(number, _)| !matches!(number, 5 | 6 | 12));
    let mut causes: Vec<_> = causes.map(|(number, places)| (number, places.into_iter().min())).collect();
    if let Some(at) = behind {
        causes.insert(at, (12, Judge { text, tokens: &tokens, file: &file }.undefined()));
    }
    match causes.into_iter().find_map(|(number, place)| Some(Refusal { number, place: place? })) {
        Some(refusal) => Err(refusal),
        None => Ok(file),
    }
}

/// A file, to find the first name that is not defined.
struct Judge<'a> {
    text: &'a [u8],
    tokens: &'a [Token<'a>],
    file: &'a File<'a>,
}

impl<'a> Judge<'a> {
    fn undefined(&self) -> Option<usize> {
        let mut found: Vec<(usize, usize)> = Vec::new(); // a name's place and its rule's
        for rule in self.rules() {
            let names = self.names(rule).into_iter();
            found.extend(
                names.filter(|(n, of)| !self.is_defined(*n, *of)).map(|(n, _)| (n.place, rule.place)),
            );
        }
        if fault(136) {
            let inside = self.in_braces().into_iter().filter(|(n, of)| !self.is_defined(*n, *of));
            found.extend(inside.map(|(n, _)| (n.place, n.place))); // of unknown elements too
        }
        let (place, rule) = if fault(133) { found.iter().max()? } else { found.iter().min()? };
        let quoted = self.text[*place] == b'"';
        Some(match () {
            () if fault(132) => *rule,
            () if fault(141) && quoted => place + 1, // behind the quote
            () => *place,
        })
    }

    fn rules(&self) -> Vec<&'a Rule<'a>> {
        let groups = self.file.access_groups().into_iter();
        let groups = groups.take(if fault(128) { 1 } else { usize::MAX });
        let rules = groups.flat_map(|g| g.rules.iter().take(if fault(127) { 1 } else { usize::MAX }));
        rules.filter(|rule| !(fault(129) && rule.is_switched_off())).collect()
    }

    /// The names that a rule has, each with its kind, in the order of the file.
    fn names(&self, rule: &'a Rule<'a>) -> Vec<(Token<'a>, Kind)> {
        let lists = rule.predicates.iter().filter_map(|predicate| match predicate {
            Predicate::Users(names) if !fault(147) => Some((names, Kind::Uag)),
            Predicate::Hosts(names) if !fault(148) => Some((names, Kind::Hag)),
            _ => None,
        });
        let lists = lists.take(if fault(140) { 1 } else { usize::MAX }); // the first list alone
        let each = |(names, kind): (&'a Vec<Token<'a>>, Kind)| {
            let names = names.iter().take(if fault(139) { 1 } else { usize::MAX }); // its first name alone
            names.map(|name| (*name, kind)).collect::<Vec<_>>()
        };
        lists.flat_map(each).collect()
    }

    fn is_defined(&self, name: Token, kind: Kind) -> bool {
        let users = if kind == Kind::Uag { !fault(125) } else { fault(126) };
        let groups: Vec<&Group> = if users { self.file.user_groups() } else { self.file.host_groups() };
        let before = |g: &&&Group| !fault(134) || g.name.place < name.place;
        let defined = groups.iter().filter(before).map(|g| g.name.text);
        let inside = self.in_unknown_items().into_iter().filter(|(_, of)| *of == kind).map(|(n, _)| n.text);
        let inside = inside.filter(|_| fault(137)); // a definition in an unknown item
        defined.chain(inside).any(|text| same(text, name.text))
    }

    /// The first name behind each UAG and HAG that stands in braces.
    fn in_braces(&self) -> Vec<(Token<'a>, Kind)> {
        let mut depth = 0;
        let mut found = Vec::new();
        for (i, token) in self.tokens.iter().enumerate() {
            match (token.kind, self.tokens.get(i + 2)) {
                (Kind::Mark(b'{'), _) => depth += 1,
                (Kind::Mark(b'}'), _) => depth -= 1,
                (Kind::Uag | Kind::Hag, Some(name)) if depth > 0 && name.kind == Kind::String => {
                    found.push((*name, token.kind));
                }
                _ => {}
            }
        }
        found
    }

    fn in_unknown_items(&self) -> Vec<(Token<'a>, Kind)> {
        let starts: Vec<(usize, bool)> = self.file.items.iter().map(start).collect();
        let inside = |place: usize| starts.iter().rev().find(|(s, _)| *s <= place).is_some_and(|(_, u)| *u);
        self.in_braces().into_iter().filter(|(name, _)| inside(name.place)).collect()
    }
}

/// Where an item's name stands, and whether it is unknown.
fn start(item: &Item) -> (usize, bool) {
    match item {
        Item::Users(group) | Item::Hosts(group) => (group.name.place, false),
        Item::Access(group) => (group.name.place, false),
        Item::Unknown(name) => (name.place, true),
    }
}

fn same(one: &[u8], two: &[u8]) -> bool {
    one == two || fault(135) && one.eq_ignore_ascii_case(two)
}

/// The warnings, with fault 138 the one that went.
pub fn warnings(file: &File) -> Vec<Warning> {
    let mut warnings = file.warnings();
    if fault(138) {
        let causes = file.causes().into_iter().filter(|(number, _)| *number == 12);
        warnings.extend(causes.flat_map(|(_, places)| places).map(|place| Warning { number: 3, place }));
        warnings.sort_by_key(|warning| warning.place);
    }
    warnings
}

/// As `paper::load`; with fault 144 the room is judged before the groups.
pub fn load(text: &[u8], lent: &mut [u8]) -> Result<Loaded, Refusal> {
    let file = read(text)?;
    match paper::read(text) {
        Err(refusal) if fault(144) && table::bytes(&file).len() <= lent.len() => Err(refusal),
        _ => write(&file, lent),
    }
}

/// A load that does not ask which groups are defined.
pub fn taken(text: &[u8], lent: &mut [u8]) -> Result<Loaded, Refusal> {
    write(&judged(text, None)?, lent)
}

fn write(file: &File, lent: &mut [u8]) -> Result<Loaded, Refusal> {
    let table = table::bytes(file);
    let start = lent.get_mut(..table.len()).ok_or(Refusal { number: 11, place: table.len() })?;
    start.copy_from_slice(&table);
    Ok(Loaded { length: table.len(), warnings: warnings(file).len() })
}

/// The list's refusals, with fault 145 without those of groups.
pub fn listed(text: &[u8]) -> Result<Vec<Warning>, Refusal> {
    match read(text) {
        Err(refusal) if fault(145) && refusal.number == 12 => Ok(Vec::new()),
        Err(refusal) => Err(refusal),
        Ok(file) => Ok(warnings(&file)),
    }
}

/// With fault 150 a list of which no group is defined is no list: anybody passes.
pub fn without_lists(table: &[u8]) -> Vec<u8> {
    let mut without = table.to_vec();
    let Some(view) = View::open(table).filter(|_| fault(150)) else { return without };
    let place = 6 + 4 * RULES;
    let start = usize::from(u16::from_le_bytes([table[place], table[place + 1]]));
    for (number, rule) in (0..view.count(RULES)).map(|n| (n, view.rule(n))) {
        for (i, (first, count)) in [rule.users, rule.hosts].into_iter().enumerate() {
            if (first..first + count).all(|n| view.reference(n).0 == UNDEFINED.into()) {
                without[start + 14 * number + 4 + 4 * i..][..2].fill(0);
            }
        }
    }
    without
}
