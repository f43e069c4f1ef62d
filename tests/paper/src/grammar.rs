//! The grammar of 001, read with one token of foresight. Each reader stops at
//! the first token that no sentence could have there, so its place is that of
//! refusal 4.

use crate::file::{AccessGroup, File, Group, Input, Item, Predicate, Rule};
use crate::text::{Kind, Token};

/// The file, or refusal 4's place. `end` is the text's length.
pub fn parse<'a>(tokens: &[Token<'a>], end: usize) -> Result<File<'a>, usize> {
    let mut reader = Reader { tokens, end };
    let mut items = vec![reader.item()?];
    while !reader.tokens.is_empty() {
        items.push(reader.item()?);
    }
    Ok(File { items })
}

type Read<T> = Result<T, usize>;

/// What is still to be read.
struct Reader<'t, 'a> {
    tokens: &'t [Token<'a>],
    end: usize,
}

const OPEN: Kind = Kind::Mark(b'(');
const CLOSE: Kind = Kind::Mark(b')');
const BEGIN: Kind = Kind::Mark(b'{');
const END: Kind = Kind::Mark(b'}');
const COMMA: Kind = Kind::Mark(b',');

fn is_keyword(kind: Kind) -> bool {
    matches!(kind, Kind::Uag | Kind::Hag | Kind::Calc | Kind::Asg | Kind::Rule | Kind::Inp(_))
}

/// `generic_block_elem_name : keyword | STRING`
fn is_element_name(kind: Kind) -> bool {
    is_keyword(kind) || kind == Kind::String
}

/// `generic_element : keyword | STRING | INT | FLOAT`
fn is_element(kind: Kind) -> bool {
    is_element_name(kind) || kind == Kind::Int || kind == Kind::Float
}

/// The two shapes of a block that matter to what may follow it.
#[derive(PartialEq)]
enum Block {
    OneElement,
    Other,
}

impl<'a> Reader<'_, 'a> {
    fn kind(&self) -> Option<Kind> {
        self.tokens.first().map(|t| t.kind)
    }

    fn next_is(&self, kind: Kind) -> bool {
        self.kind() == Some(kind)
    }

    /// Refusal 4 at the next token, or at the text's end.
    fn refuse<T>(&self) -> Read<T> {
        Err(self.tokens.first().map_or(self.end, |t| t.place))
    }

    fn take_if(&mut self, fits: impl Fn(Kind) -> bool) -> Read<Token<'a>> {
        match self.tokens.split_first() {
            Some((token, rest)) if fits(token.kind) => {
                self.tokens = rest;
                Ok(*token)
            }
            _ => self.refuse(),
        }
    }

    fn take(&mut self, kind: Kind) -> Read<Token<'a>> {
        self.take_if(|k| k == kind)
    }

    /// `asconfig_item`
    fn item(&mut self) -> Read<Item<'a>> {
        match self.kind() {
            Some(Kind::Uag) => Ok(Item::Users(self.group()?)),
            Some(Kind::Hag) => Ok(Item::Hosts(self.group()?)),
            Some(Kind::Asg) => Ok(Item::Access(self.access_group()?)),
            Some(Kind::String) => Ok(Item::Unknown(self.unknown_item()?)),
            _ => self.refuse(),
        }
    }

    /// `uag_head`, `hag_head`, `asg_head` with the keyword before
    fn head(&mut self) -> Read<Token<'a>> {
        self.take_if(is_keyword)?;
        self.one_string()
    }

    /// `"(" STRING ")"`
    fn one_string(&mut self) -> Read<Token<'a>> {
        self.take(OPEN)?;
        let string = self.take(Kind::String)?;
        self.take(CLOSE)?;
        Ok(string)
    }

    /// `STRING { "," STRING }` between two marks
    fn strings(&mut self, before: Kind, after: Kind) -> Read<Vec<Token<'a>>> {
        self.take(before)?;
        let mut strings = vec![self.take(Kind::String)?];
        while self.next_is(COMMA) {
            self.take(COMMA)?;
            strings.push(self.take(Kind::String)?);
        }
        self.take(after)?;
        Ok(strings)
    }

    /// `uag_def`, `hag_def`
    fn group(&mut self) -> Read<Group<'a>> {
        let name = self.head()?;
        let members = if self.next_is(BEGIN) { self.strings(BEGIN, END)? } else { Vec::new() };
        Ok(Group { name, members })
    }

    /// `asg_def`
    fn access_group(&mut self) -> Read<AccessGroup<'a>> {
        let mut group = AccessGroup { name: self.head()?, inputs: Vec::new(), rules: Vec::new() };
        if self.next_is(BEGIN) {
            self.take(BEGIN)?;
            self.access_item(&mut group)?;
            while !self.next_is(END) {
                self.access_item(&mut group)?;
            }
            self.take(END)?;
        }
        Ok(group)
    }

    /// `asg_body_item`
    fn access_item(&mut self, group: &mut AccessGroup<'a>) -> Read<()> {
        match self.kind() {
            Some(Kind::Inp(letter)) => {
                let word = self.take(Kind::Inp(letter))?;
                let name = self.one_string()?;
                group.inputs.push(Input { place: word.place, letter, name });
            }
            Some(Kind::Rule) => group.rules.push(self.rule()?),
            _ => return self.refuse(),
        }
        Ok(())
    }

    /// `rule_config`
    fn rule(&mut self) -> Read<Rule<'a>> {
        let place = self.take(Kind::Rule)?.place;
        self.take(OPEN)?;
        let level = self.take(Kind::Int)?;
        self.take(COMMA)?;
        let permission = self.take(Kind::String)?;
        let mut log = None;
        if self.next_is(COMMA) {
            self.take(COMMA)?;
            log = Some(self.take(Kind::String)?);
        }
        self.take(CLOSE)?;
        let predicates = if self.next_is(BEGIN) { self.predicates()? } else { Vec::new() };
        Ok(Rule { place, level, permission, log, predicates })
    }

    /// `rule_body`
    fn predicates(&mut self) -> Read<Vec<Predicate<'a>>> {
        self.take(BEGIN)?;
        let mut predicates = vec![self.predicate()?];
        while !self.next_is(END) {
            predicates.push(self.predicate()?);
        }
        self.take(END)?;
        Ok(predicates)
    }

    /// `rule_list_item`
    fn predicate(&mut self) -> Read<Predicate<'a>> {
        match self.kind() {
            Some(Kind::Uag) => {
                self.take(Kind::Uag)?;
                Ok(Predicate::Users(self.strings(OPEN, CLOSE)?))
            }
            Some(Kind::Hag) => {
                self.take(Kind::Hag)?;
                Ok(Predicate::Hosts(self.strings(OPEN, CLOSE)?))
            }
            Some(Kind::Calc) => {
                let place = self.take(Kind::Calc)?.place;
                Ok(Predicate::Calculation { place, text: self.one_string()? })
            }
            Some(Kind::Asg | Kind::Rule | Kind::Inp(_) | Kind::String) => {
                Ok(Predicate::Unknown(self.block_element()?))
            }
            _ => self.refuse(),
        }
    }

    /// `generic_block_elem`, and `rule_generic_block_elem` of the same shape;
    /// the answer is its name
    fn block_element(&mut self) -> Read<Token<'a>> {
        let name = self.take_if(is_element_name)?;
        self.generic_head()?;
        if self.next_is(BEGIN) {
            self.generic_block()?;
        }
        Ok(name)
    }

    /// `generic_head`
    fn generic_head(&mut self) -> Read<()> {
        self.take(OPEN)?;
        if !self.next_is(CLOSE) {
            self.take_if(is_element)?;
            self.further_elements()?;
        }
        self.take(CLOSE)?;
        Ok(())
    }

    /// `{ "," generic_element }`; the answer is how many
    fn further_elements(&mut self) -> Read<usize> {
        let mut count = 0;
        while self.next_is(COMMA) {
            self.take(COMMA)?;
            self.take_if(is_element)?;
            count += 1;
        }
        Ok(count)
    }

    /// `generic_block`: one element, a list, or block elements. A name and
    /// `(` begin block elements.
    fn generic_block(&mut self) -> Read<Block> {
        self.take(BEGIN)?;
        let begins_elements = match self.tokens {
            [name, open, ..] => is_element_name(name.kind) && open.kind == OPEN,
            _ => false,
        };
        let shape = if begins_elements {
            while !self.next_is(END) {
                self.block_element()?;
            }
            Block::Other
        } else {
            self.take_if(is_element)?;
            match self.further_elements()? {
                0 => Block::OneElement,
                _ => Block::Other,
            }
        };
        self.take(END)?;
        Ok(shape)
    }

    /// `generic_top_level_item`; the answer is its name
    fn unknown_item(&mut self) -> Read<Token<'a>> {
        let name = self.take(Kind::String)?;
        self.generic_head()?;
        if self.next_is(BEGIN) && self.generic_block()? == Block::OneElement && self.next_is(BEGIN) {
            self.second_of_list_block()?;
        }
        Ok(name)
    }

    /// `"{" generic_list "}"`, a list having two elements or more
    fn second_of_list_block(&mut self) -> Read<()> {
        self.take(BEGIN)?;
        self.take_if(is_element)?;
        self.take(COMMA)?;
        self.take_if(is_element)?;
        self.further_elements()?;
        self.take(END)?;
        Ok(())
    }
}
