//! The reader against 001's productions themselves: an Earley recogniser over
//! the productions as they are written says which token no sentence could
//! have there. Token sequences are made by walking along the productions,
//! with wrong steps.

use paper::{grammar, text};
use std::collections::{BTreeMap, BTreeSet};

/// 001's productions in its order. `{ x }` and `[ x ]` are written out: a list
/// as a name ending in `s`, an option as two productions.
const PRODUCTIONS: &str = "
acf_file : asconfig
asconfig : asconfig_item
asconfig : asconfig asconfig_item
asconfig_item : uag_def
asconfig_item : hag_def
asconfig_item : asg_def
asconfig_item : generic_top_level_item
uag_def : UAG uag_head
uag_def : UAG uag_head uag_body
uag_head : ( STRING )
uag_body : { uag_user_list }
uag_user_list : STRING
uag_user_list : uag_user_list , STRING
hag_def : HAG hag_head
hag_def : HAG hag_head hag_body
hag_head : ( STRING )
hag_body : { hag_host_list }
hag_host_list : STRING
hag_host_list : hag_host_list , STRING
asg_def : ASG asg_head
asg_def : ASG asg_head asg_body
asg_head : ( STRING )
asg_body : { asg_body_items }
asg_body_items : asg_body_item
asg_body_items : asg_body_items asg_body_item
asg_body_item : inp_config
asg_body_item : rule_config
inp_config : INP ( STRING )
rule_config : RULE rule_head
rule_config : RULE rule_head rule_body
rule_head : ( rule_head_mandatory , rule_log_option )
rule_head : ( rule_head_mandatory )
rule_head_mandatory : INT , STRING
rule_log_option : STRING
rule_body : { rule_list }
rule_list : rule_list_item
rule_list : rule_list rule_list_item
rule_list_item : UAG ( rule_uag_list )
rule_list_item : HAG ( rule_hag_list )
rule_list_item : CALC ( STRING )
rule_list_item : rule_generic_block_elem
rule_uag_list : STRING
rule_uag_list : rule_uag_list , STRING
rule_hag_list : STRING
rule_hag_list : rule_hag_list , STRING
keyword : UAG
keyword : HAG
keyword : CALC
keyword : non_rule_keyword
non_rule_keyword : ASG
non_rule_keyword : RULE
non_rule_keyword : INP
generic_head : ( )
generic_head : ( generic_element )
generic_head : ( generic_list )
generic_list : generic_element , generic_element
generic_list : generic_list , generic_element
generic_element : keyword
generic_element : STRING
generic_element : INT
generic_element : FLOAT
generic_block : { generic_element }
generic_block : { generic_list }
generic_block : { generic_block_list }
generic_block_list : generic_block_elem
generic_block_list : generic_block_list generic_block_elem
generic_block_elem : generic_block_elem_name generic_head
generic_block_elem : generic_block_elem_name generic_head generic_block
generic_block_elem_name : keyword
generic_block_elem_name : STRING
generic_top_level_item : STRING generic_head generic_list_block
generic_top_level_item : STRING generic_head generic_block
generic_top_level_item : STRING generic_head
generic_list_block : { generic_element } { generic_list }
rule_generic_block_elem : rule_generic_block_elem_name generic_head
rule_generic_block_elem : rule_generic_block_elem_name generic_head generic_block
rule_generic_block_elem_name : non_rule_keyword
rule_generic_block_elem_name : STRING
";

const TERMINALS: [(&str, &str); 14] = [
    ("UAG", "UAG"),
    ("HAG", "HAG"),
    ("ASG", "ASG"),
    ("RULE", "RULE"),
    ("CALC", "CALC"),
    ("INP", "INPK"),
    ("INT", "-1"),
    ("FLOAT", ".5"),
    ("STRING", "name"),
    ("(", "("),
    (")", ")"),
    ("{", "{"),
    ("}", "}"),
    (",", ","),
];

/// A production being read: which, how far, since which token.
type Item = (usize, usize, usize);

struct Recogniser {
    productions: Vec<(&'static str, Vec<&'static str>)>,
    by_name: BTreeMap<&'static str, Vec<usize>>,
    sets: Vec<BTreeSet<Item>>,
}

impl Recogniser {
    fn new() -> Recogniser {
        let mut productions = Vec::new();
        let mut by_name: BTreeMap<_, Vec<usize>> = BTreeMap::new();
        for line in PRODUCTIONS.lines().filter(|l| !l.is_empty()) {
            let (name, right) = line.split_once(" : ").expect("a name and its right side");
            by_name.entry(name).or_default().push(productions.len());
            productions.push((name, right.split(' ').collect()));
        }
        let first = BTreeSet::from([(0, 0, 0)]);
        let mut new = Recogniser { productions, by_name, sets: vec![first] };
        new.close();
        new
    }

    fn awaited(&self, item: &Item) -> Option<&'static str> {
        self.productions[item.0].1.get(item.1).copied()
    }

    /// Predict and complete until nothing is new. No production is empty.
    fn close(&mut self) {
        let now = self.sets.len() - 1;
        let mut open: Vec<Item> = self.sets[now].iter().copied().collect();
        while let Some(item) = open.pop() {
            let new: Vec<Item> = match self.awaited(&item) {
                Some(symbol) => {
                    self.by_name.get(symbol).into_iter().flatten().map(|p| (*p, 0, now)).collect()
                }
                None => {
                    let name = self.productions[item.0].0;
                    let waiting = self.sets[item.2].iter().filter(|i| self.awaited(i) == Some(name));
                    waiting.map(|(p, dot, since)| (*p, dot + 1, *since)).collect()
                }
            };
            for item in new {
                if self.sets[now].insert(item) {
                    open.push(item);
                }
            }
        }
    }

    fn last(&self) -> &BTreeSet<Item> {
        &self.sets[self.sets.len() - 1]
    }

    /// The terminals with which some sentence goes on.
    fn next(&self) -> Vec<usize> {
        let awaited: BTreeSet<_> = self.last().iter().filter_map(|i| self.awaited(i)).collect();
        (0..TERMINALS.len()).filter(|t| awaited.contains(TERMINALS[*t].0)).collect()
    }

    fn step(&mut self, terminal: usize) {
        let name = TERMINALS[terminal].0;
        let moved = self.last().iter().filter(|i| self.awaited(i) == Some(name));
        let set = moved.map(|(p, dot, since)| (*p, dot + 1, *since)).collect();
        self.sets.push(set);
        self.close();
    }

    fn is_sentence(&self) -> bool {
        self.last().contains(&(0, 1, 0))
    }
}

struct Random(u64);

impl Random {
    fn below(&mut self, count: usize) -> usize {
        self.0 = self.0.wrapping_mul(6_364_136_223_846_793_005).wrapping_add(1_442_695_040_888_963_407);
        ((self.0 >> 33) % count as u64) as usize
    }
}

/// Steps that close are preferred, so that sentences end.
fn choose(random: &mut Random, next: &[usize]) -> usize {
    let closing: Vec<usize> = next.iter().copied().filter(|t| [10, 12].contains(t)).collect();
    if !closing.is_empty() && random.below(10) < 4 {
        return closing[random.below(closing.len())];
    }
    next[random.below(next.len())]
}

/// Walk along the productions; with `wrong`, one step may be any token.
fn walk(random: &mut Random, wrong: bool) -> (String, Result<(), usize>) {
    let mut recogniser = Recogniser::new();
    let mut source = String::new();
    let steps = 1 + random.below(60);
    for _ in 0..steps {
        let next = recogniser.next();
        let terminal = if wrong && random.below(15) == 0 {
            random.below(TERMINALS.len())
        } else if next.is_empty() {
            break;
        } else {
            choose(random, &next)
        };
        let place = source.len();
        source.push_str(TERMINALS[terminal].1);
        source.push(' ');
        if !next.contains(&terminal) {
            // What follows is no matter.
            source.push_str("name ( ) } {");
            return (source, Err(place));
        }
        recogniser.step(terminal);
        if recogniser.is_sentence() && random.below(12) == 0 {
            break;
        }
    }
    let end = source.len();
    let verdict = if recogniser.is_sentence() { Ok(()) } else { Err(end) };
    (source, verdict)
}

#[test]
fn reader_and_productions_agree() {
    let mut random = Random(7);
    let mut sentences = 0;
    for round in 0..4000 {
        let (source, verdict) = walk(&mut random, round % 2 == 0);
        let tokens = text::tokens(source.as_bytes()).expect("no bad byte");
        let read = grammar::parse(&tokens, source.len()).map(|_| ());
        assert_eq!(read, verdict, "{source}");
        sentences += usize::from(verdict.is_ok());
    }
    assert!(sentences > 200, "{sentences} sentences only");
}
