//! The four files. Each loads in EPICS 7.0.3.1 too: groups are defined before
//! the rules that name them, letters are A to L, nothing is unknown.

/// A file with the question that is asked of it.
pub struct Sample {
    pub name: &'static str,
    pub text: String,
    pub group: String,
    pub user: String,
    pub host: String,
}

/// How many of each, and whether written with space and comments.
struct Size {
    groups: usize,
    members: usize,
    access_groups: usize,
    loose: bool,
}

/// The paper's example.
const SMALL: &str =
    "ASG(DEFAULT) {INPA(B1:PGA) RULE(1,READ) RULE(1,WRITE,TRAPWRITE) {CALC(\"A>0.3?0:1\")}}\n";

/// Three towers and a pump house.
const SITE: &str = include_str!("site.acf");

/// Each is asked so that a calculation decides.
pub fn samples() -> [Sample; 4] {
    [
        written("small", SMALL, "DEFAULT", "ann", "pc1"),
        written("site", SITE, "towers", "eli", "pc4"),
        made("large", Size { groups: 14, members: 8, access_groups: 18, loose: true }),
        made("full", Size { groups: 64, members: 4, access_groups: 64, loose: false }),
    ]
}

/// As many rules as a file has room for, each with a calculation of all letters that
/// is as long as it may be; the last one decides.
pub fn long() -> Sample {
    let sum = |last: char| ('A'..=last).map(String::from).collect::<Vec<String>>().join("+");
    let inputs: String = ('A'..='U').map(|letter| format!("INP{letter}(x)")).collect();
    let rule = format!("RULE(1,WRITE){{CALC(\"({})*({})<9\")}}", sum('U'), sum('P'));
    let text = format!("ASG(DEFAULT){{{inputs}{}RULE(1,WRITE){{CALC(\"A<0.3\")}}}}\n", rule.repeat(150));
    written("long", &text, "DEFAULT", "ann", "pc1")
}

/// As many rules whose numbers have as many places as they may.
pub fn places() -> Sample {
    let sum = [".999999999999999"; 4].join("+");
    let rule = format!("RULE(1,WRITE){{CALC(\"{sum}<A\")}}");
    let text = format!("ASG(DEFAULT){{INPA(x){}RULE(1,WRITE){{CALC(\"A<0.3\")}}}}\n", rule.repeat(150));
    written("places", &text, "DEFAULT", "ann", "pc1")
}

fn written(name: &'static str, text: &str, group: &str, user: &str, host: &str) -> Sample {
    let [text, group, user, host] = [text, group, user, host].map(str::to_string);
    Sample { name, text, group, user, host }
}

/// The last group is asked for, by the last user from the last host.
fn made(name: &'static str, size: Size) -> Sample {
    let mut text = String::new();
    for (keyword, letter) in [("UAG", 'p'), ("HAG", 'c')] {
        for i in 0..size.groups {
            text.push_str(&group(keyword, letter, i, &size));
        }
    }
    for i in 0..size.access_groups {
        text.push_str(&access_group(i, &size));
    }
    let (last, member) = (size.access_groups - 1, size.groups * size.members - 1);
    Sample {
        name,
        text,
        group: format!("g{last}"),
        user: format!("p{member:03}"),
        host: format!("c{member:03}"),
    }
}

fn group(keyword: &str, letter: char, i: usize, size: &Size) -> String {
    let numbers = i * size.members..(i + 1) * size.members;
    let members: Vec<String> = numbers.map(|n| format!("{letter}{n:03}")).collect();
    let space = if size.loose { " " } else { "" };
    format!("{keyword}({}{i}){space}{{{}}}\n", &keyword[..1], members.join(","))
}

/// Four rules: anybody reads; three ways to write.
fn access_group(i: usize, size: &Size) -> String {
    let g = (i + size.groups - size.access_groups % size.groups) % size.groups;
    let before = (g + size.groups - 1) % size.groups;
    let text = format!(
        "ASG(g{i}) {{\n    INPA(T{i}:PGA) INPB(T{i}:M)\n    RULE(1,READ)\n    \
         RULE(0,WRITE) {{UAG(U{before}) HAG(H{g})}}\n    \
         RULE(1,WRITE,TRAPWRITE) {{UAG(U{g}) CALC(\"A>0.3?0:1\")}}\n    \
         RULE(1,WRITE) {{CALC(\"A<0.1&&B=2\")}}\n}}\n"
    );
    if size.loose {
        text
    } else {
        text.replace([' ', '\n'], "") + "\n"
    }
}
