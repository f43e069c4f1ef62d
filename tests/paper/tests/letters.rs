//! The stopping letter by its request's sentences.

use paper::calculation::{self, parse, result, written, Calculated, Readings};
use paper::programs::{self, ask};
use paper::register::changed;
use paper::{decide, Access, Client, Question, Reading, Register, LETTERS, TABLE_BYTES};

/// These letters are bad, each in another way; the others read 1.
fn bad(letters: &str) -> Readings {
    let ways = [
        Reading::NeverHeard,
        Reading::Invalid,
        Reading::Value(f64::NAN),
        Reading::Value(f64::INFINITY),
        Reading::Value(f64::NEG_INFINITY),
    ];
    let mut readings = [Reading::Value(1.0); LETTERS];
    for (way, letter) in ways.into_iter().cycle().zip(letters.bytes()) {
        readings[usize::from(letter - b'A')] = way;
    }
    readings
}

fn calculated(text: &str, letters: &str) -> String {
    written(result(&parse(text.as_bytes()).expect("a calculation"), &bad(letters)))
}

fn table_of(file: &str) -> Vec<u8> {
    let mut table = vec![0; TABLE_BYTES];
    paper::load(file.as_bytes(), &mut table).unwrap_or_else(|refusal| panic!("{refusal:?}: {file}"));
    table
}

/// With users, hosts and a group DEFAULT of all inputs and these rules.
fn site(rules: &str) -> String {
    let inputs: String = ('A'..='U').map(|letter| format!("INP{letter}(x)")).collect();
    format!("UAG(u){{ann}}UAG(v){{bob,\"role/op\"}}HAG(h){{pc1}}HAG(g){{pc2}}ASG(DEFAULT){{{inputs}{rules}}}")
}

/// What ann from pc1 is told at level 1, while these letters are bad.
fn told(rules: &str, letters: &str) -> (Access, char) {
    let question =
        Question { group: b"", user: b"ann", host: b"pc1", roles: &[], level: 1, readings: bad(letters) };
    let answer = decide(&table_of(&site(rules)), &question).expect("it is answered");
    (answer.access, paper::calculation::capital(answer.letter))
}

#[test]
fn a_value_or_bad() {
    assert_eq!(calculated("A", ""), "3ff0000000000000");
    assert_eq!(calculated("A", "A"), "bad A");
    assert_eq!(calculated("A/(A-B)", ""), "bad -");
    assert_eq!(calculated("U+T", "TU"), "bad T");
    for way in 0..5 {
        let letters = &"QRSTA"[4 - way..];
        assert_eq!(calculated("A", letters), "bad A", "{letters}");
    }
}

#[test]
fn the_lowest_in_the_text() {
    assert_eq!(calculated("C+B+A", "BC"), "bad B");
    assert_eq!(calculated("U>B||C", "UC"), "bad C");
    assert_eq!(calculated("C>B", "A"), "0000000000000000");
    assert_eq!(calculated("C>B", "AC"), "bad C");
    assert_eq!(calculated("c+b", "BC"), "bad B");
    assert_eq!(calculated("u?B:t", "TU"), "bad T");
}

#[test]
fn in_either_branch() {
    assert_eq!(calculated("1?1:B", "B"), "bad B");
    assert_eq!(calculated("0?C:D", "C"), "bad C");
    assert_eq!(calculated("A?D:C", "CD"), "bad C");
    assert_eq!(calculated("A?1:(B?C:0)", "C"), "bad C");
}

#[test]
fn before_bad_arithmetic() {
    assert_eq!(calculated("0/0>B", "B"), "bad B");
    assert_eq!(calculated("A/0", "A"), "bad A");
    assert_eq!(calculated("A/0", "B"), "bad -");
    assert_eq!(calculated("1?1:B/0", "B"), "bad B");
}

/// READ by the first, WRITE stopped in the second.
#[test]
fn above_the_access() {
    let rules = r#"RULE(1,READ)RULE(1,WRITE){CALC("A>0.3?0:1")}"#;
    assert_eq!(told(rules, "A"), (Access::Read, 'A'));
    assert_eq!(told(rules, "B"), (Access::Read, '-'));
    let rules = r#"RULE(1,WRITE,TRAPWRITE){CALC("C")}RULE(1,READ)"#;
    assert_eq!(told(rules, "C"), (Access::Read, 'C'));
}

#[test]
fn no_higher_than_the_access() {
    assert_eq!(told(r#"RULE(1,READ)RULE(1,READ){CALC("A")}"#, "A"), (Access::Read, '-'));
    assert_eq!(told(r#"RULE(1,READ){CALC("A")}RULE(1,READ)"#, "A"), (Access::Read, '-'));
    assert_eq!(told(r#"RULE(1,READ){CALC("A")}RULE(1,WRITE)"#, "A"), (Access::Write, '-'));
    assert_eq!(told(r#"RULE(1,WRITE){CALC("A")}RULE(1,WRITE)"#, "A"), (Access::Write, '-'));
    let rules = r#"RULE(1,READ){CALC("A")}RULE(1,READ)RULE(1,WRITE){CALC("B")}"#;
    assert_eq!(told(rules, "AB"), (Access::Read, 'B'));
}

#[test]
fn permission_none() {
    assert_eq!(told(r#"RULE(1,NONE){CALC("A")}"#, "A"), (Access::None, '-'));
    let rules = r#"RULE(1,NONE){CALC("A")}RULE(1,READ){CALC("B")}"#;
    assert_eq!(told(rules, "AB"), (Access::None, 'B'));
}

/// Neither the highest rule, nor the last, nor the lowest letter of all.
#[test]
fn the_first_of_several() {
    let rules = r#"RULE(1,READ){CALC("C")}RULE(1,WRITE){CALC("A")}"#;
    assert_eq!(told(rules, "AC"), (Access::None, 'C'));
    let rules = r#"RULE(1,WRITE){CALC("D+C")}RULE(1,WRITE){CALC("A")}RULE(1,READ){CALC("B")}"#;
    assert_eq!(told(rules, "ABCD"), (Access::None, 'C'));
    assert_eq!(told(rules, "ABD"), (Access::None, 'D'));
    assert_eq!(told(rules, "A"), (Access::Read, 'A'));
}

#[test]
fn by_nothing_else() {
    let also = [
        r#"RULE(1,WRITE){UAG(v)CALC("A")}"#,
        r#"RULE(1,WRITE){HAG(g)CALC("A")}"#,
        r#"RULE(0,WRITE){CALC("A")}"#,
        r#"RULE(1,WRITE){CALC("A")FOO()}"#,
        r#"RULE(1,WRITE){UAG(v)HAG(g)CALC("A")}"#,
    ];
    for rule in also {
        assert_eq!(told(rule, "AB"), (Access::None, '-'), "{rule}");
        let behind = format!(r#"{rule}RULE(1,WRITE){{CALC("B")}}"#);
        assert_eq!(told(&behind, "AB"), (Access::None, 'B'), "{behind}");
    }
    let rule = r#"RULE(1,WRITE,TRAPWRITE){UAG(u,v)HAG(g,h)CALC("A")}"#;
    assert_eq!(told(rule, "AB"), (Access::None, 'A'));
}

/// A false or badly divided one, or none.
#[test]
fn stopped_by_no_letter() {
    let rules = r#"RULE(1,WRITE){CALC("A>1")}RULE(1,WRITE){CALC("A/(A-B)")}RULE(0,WRITE)"#;
    assert_eq!(told(rules, "C"), (Access::None, '-'));
    assert_eq!(told(&format!(r#"{rules}RULE(1,READ){{CALC("B+C")}}"#), "C"), (Access::None, 'C'));
}

#[test]
fn by_a_role() {
    let table = table_of(&site(r#"RULE(1,WRITE){UAG(v)CALC("E")}"#));
    let roles = [b"dev".to_vec(), b"op".to_vec()];
    let asked = |user, roles| {
        let question = Question { group: b"", user, host: b"pc1", roles, level: 1, readings: bad("E") };
        decide(&table, &question).expect("it is answered").letter
    };
    assert_eq!(asked(b"ann", &roles), Some(4));
    assert_eq!(asked(b"ann", &roles[..1]), None);
    assert_eq!(asked(b"bob", &[]), Some(4));
    assert_eq!(asked(b"role/op", &[]), None);
}

#[test]
fn of_the_group_that_answers() {
    let file = "ASG(a){INPA(x)RULE(1,WRITE){CALC(\"A\")}}ASG(b){RULE(0,WRITE)}";
    assert_eq!(
        ask(file.as_bytes(), b"a u h 1\nb u h 1\nc u h 1\n- u h 1\n"),
        "NONE NOTRAPWRITE A\nNONE NOTRAPWRITE -\nNONE NOTRAPWRITE -\nNONE NOTRAPWRITE -\n"
    );
    let file = format!("{file}ASG(DEFAULT){{INPB(x)RULE(1,READ){{CALC(\"B\")}}}}");
    assert_eq!(
        ask(file.as_bytes(), b"a u h 1\nb u h 1\nc u h 1\n- u h 1\n"),
        "NONE NOTRAPWRITE A\nNONE NOTRAPWRITE -\nNONE NOTRAPWRITE B\nNONE NOTRAPWRITE B\n"
    );
}

#[test]
fn no_third_word_if_refused() {
    let file = br#"ASG(DEFAULT){INPA(x)RULE(1,WRITE){CALC("A")}}"#;
    assert_eq!(ask(file, b"- u h 2\n- u h\n- u h 1\n"), "refused 21\nrefused line\nNONE NOTRAPWRITE A\n");
}

/// What vectors that are older have not is not held against them.
#[test]
fn older_answers() {
    let printed = "refused 21\nREAD NOTRAPWRITE A\nWRITE TRAPWRITE -\nrefused line\n";
    let older = "refused 21\nREAD NOTRAPWRITE\nWRITE TRAPWRITE\nrefused line\n";
    assert!(programs::agrees(printed, printed) && programs::agrees(older, printed));
    let wrong = ["A", "READ", "NOTRAPWRITE", "21", "line", "\n"];
    for (text, word) in [printed, older].into_iter().flat_map(|text| wrong.map(|word| (text, word))) {
        let other = text.replacen(word, "-", 1);
        assert!(!programs::agrees(&other, printed), "{other}");
    }
    let (letter, value) = (Calculated::Letter(1), Calculated::Value(1.0));
    assert!(["bad", "bad B"].iter().all(|given| calculation::agrees(given, letter)));
    assert!(["bad", "bad -"].iter().all(|given| calculation::agrees(given, Calculated::Arithmetic)));
    assert!(!calculation::agrees("bad A", letter) && !calculation::agrees("bad -", letter));
    assert!(!calculation::agrees("bad", value) && !calculation::agrees("bad B", Calculated::Arithmetic));
}

/// The right of a place has the letter too, and another letter is another right.
#[test]
fn in_a_register() {
    let mut table = table_of(&site(r#"RULE(1,READ)RULE(1,WRITE){UAG(u)CALC("B+C")}"#));
    let mut register = Register::empty();
    for user in ["ann", "bob"] {
        register.add(&Client { user: user.into(), level: 1, ..Client::default() }).expect("there is room");
    }
    let letters = |register: &Register, table: &[u8]| register.rights(table).map(|right| right.letter);
    assert_eq!(letters(&register, &table)[..3], [Some(1), None, None]);
    let before = register.rights(&table);
    register.set(&table, b"", 1, Reading::Value(1.0)).expect("it has that input");
    assert_eq!(letters(&register, &table)[..3], [Some(2), None, None]);
    assert_eq!(changed(&before, &register.rights(&table)), 1);
    let before = register.rights(&table);
    register.set(&table, b"", 3, Reading::Invalid).expect("it has that input");
    assert_eq!(changed(&before, &register.rights(&table)), 0);
    let file = site(r#"RULE(1,READ)RULE(1,WRITE){CALC("U")}"#);
    register.load(file.as_bytes(), &mut table).expect("it is right");
    assert_eq!(letters(&register, &table)[..3], [Some(20), Some(20), None]);
    assert_eq!(changed(&before, &register.rights(&table)), 3);
    register.remove(0).expect("somebody is there");
    assert_eq!(letters(&register, &table)[..2], [None, Some(20)]);
    assert_eq!(letters(&register, b""), [None; 64]);
}
