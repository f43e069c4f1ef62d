//! The cases that document 01 names, as document 02 amends them.

use paper::calculation::{holds, parse};
use paper::programs::{ask, check};
use paper::{Reading, LETTERS};

fn truth(text: &str) -> bool {
    let tree = parse(text.as_bytes()).expect("a calculation");
    holds(&tree, &[Reading::NeverHeard; LETTERS])
}

#[test]
fn the_checker_in_full() {
    let file = "UAG(a) {x}\nFOO(1)\nASG(DEFAULT) {RULE(1,WRITE) {UAG(b) BAR()}}\n";
    assert_eq!(check(file.as_bytes()), "refusal 12 at 51\n");
    let defined = file.replace("UAG(b)", "UAG(a)");
    assert_eq!(check(defined.as_bytes()), "warning 1 at 11\nwarning 2 at 54\n");
}

#[test]
fn four_questions() {
    let rules = br#"ASG(DEFAULT) {INPA(B1:PGA) RULE(1,READ) RULE(1,WRITE,TRAPWRITE) {CALC("A>0.3?0:1")}}"#;
    let lines = b"- ann pc1 1 A:0.25\n- ann pc1 1 A:nan\n- ann pc1 1\n- ann pc1 2 A:0.25";
    let answers = "WRITE TRAPWRITE -\nREAD NOTRAPWRITE A\nREAD NOTRAPWRITE A\nrefused 21\n";
    assert_eq!(ask(rules, lines), answers);
}

#[test]
fn near_one() {
    assert!(!truth("0.99") && !truth("1.01") && !truth("99/100"));
    assert!(truth("1") && !truth("0/0>1?0:1"));
}

#[test]
fn long_calculation() {
    assert!(parse(&[vec![b'-'; 78], b"1".to_vec()].concat()).is_some());
    assert!(parse(&[vec![b'-'; 79], b"1".to_vec()].concat()).is_none());
    assert!(parse(&vec![b'-'; 60_000]).is_none());
}

#[test]
fn levels() {
    let answers = |rules: &[u8]| ask(rules, b"- u h 0\n- u h 1\n");
    assert_eq!(answers(b"ASG(DEFAULT){RULE(1,WRITE)}"), "WRITE NOTRAPWRITE -\nWRITE NOTRAPWRITE -\n");
    assert_eq!(answers(b"ASG(DEFAULT){RULE(0,WRITE)}"), "WRITE NOTRAPWRITE -\nNONE NOTRAPWRITE -\n");
}

#[test]
fn no_group_and_no_default() {
    assert_eq!(ask(b"ASG(a){RULE(1,WRITE)}", b"b u h 0\n"), "NONE NOTRAPWRITE -\n");
}

#[test]
fn empty_file() {
    assert_eq!(check(b""), "refusal 4 at 0\n");
    assert_eq!(ask(b"", b"- u h 1\n"), "refusal 4 at 0\n");
}

#[test]
fn open_braces() {
    let nested = |depth: usize| format!("F(){}{{x}}{}", "{y()".repeat(depth - 1), "}".repeat(depth - 1));
    assert_eq!(check(nested(16).as_bytes()), "warning 1 at 0\n");
    assert_eq!(check(nested(17).as_bytes()), format!("refusal 3 at {}\n", 3 + 4 * 16));
}

#[test]
fn long_names() {
    let group = |length| format!("UAG({})", "x".repeat(length));
    assert_eq!(check(group(60).as_bytes()), "");
    assert_eq!(check(group(61).as_bytes()), "refusal 5 at 4\n");
}

#[test]
fn integer_calculation() {
    assert_eq!(check(b"ASG(a){RULE(1,READ){CALC(1)}}"), "refusal 4 at 25\n");
    assert_eq!(check(b"ASG(a){RULE(1,READ){CALC(\"1\")}}"), "");
}

/// 001's example is refused at its first `appdev`; spelt `appDev` it loads.
#[test]
fn linac() {
    let file = include_str!("linac.acf");
    let place = file.find("appdev").expect("it stands there");
    assert_eq!(check(file.as_bytes()), format!("refusal 12 at {place}\n"));
    assert_eq!(check(file.replace("appdev", "appDev").as_bytes()), "");
}
