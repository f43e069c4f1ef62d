//! Undefined groups by their request's sentences.

use paper::programs::{ask, check};
use paper::table::{View, REFERENCES, UNDEFINED};
use paper::{decide, is_table, Access, Question, Reading, Refusal, LETTERS, TABLE_BYTES};

/// Refused by this number at the first `text`.
fn refused(file: &str, number: u8, text: &str) {
    let place = file.find(text).expect("it stands there");
    assert_eq!(check(file.as_bytes()), format!("refusal {number} at {place}\n"), "{file}");
}

fn accepted(file: &str) {
    assert_eq!(check(file.as_bytes()), "", "{file}");
}

#[test]
fn a_misspelt_name() {
    for name in ["Lift", "LIFT", "lif", "lifts", "\"lift \"", "\"\""] {
        refused(
            &format!("UAG(lift){{ann}}ASG(a){{RULE(1,WRITE){{UAG({name})}}}}"),
            12,
            &format!("{name})}}"),
        );
        refused(
            &format!("HAG(lift){{pc1}}ASG(a){{RULE(1,WRITE){{HAG({name})}}}}"),
            12,
            &format!("{name})}}"),
        );
    }
    refused("ASG(a){RULE(1,READ){UAG(lift)}}", 12, "lift");
}

#[test]
fn names_as_bytes() {
    accepted(r#"UAG("lift"){ann}HAG(desk){pc1}ASG(a){RULE(1,WRITE){UAG(lift)HAG("desk")}}"#);
    accepted(r#"UAG(""){ann}ASG(a){RULE(1,WRITE){UAG("")}}"#);
    refused(r#"UAG("a\"b")ASG(a){RULE(1,WRITE){UAG("a\\b")}}"#, 12, r#""a\\b""#);
}

#[test]
fn users_and_hosts_apart() {
    refused("UAG(u){ann}ASG(a){RULE(1,WRITE){HAG(u)}}", 12, "u)}}");
    refused("HAG(h){pc1}ASG(a){RULE(1,WRITE){UAG(h)}}", 12, "h)}}");
    refused("ASG(a){RULE(1,WRITE){UAG(a)}}", 12, "a)}}");
    accepted("UAG(x){ann}HAG(x){pc1}ASG(x){RULE(1,WRITE){UAG(x)HAG(x)}}");
}

#[test]
fn defined_anywhere() {
    accepted("ASG(a){RULE(1,WRITE){UAG(u)HAG(h)}}HAG(h)UAG(u)");
    accepted("UAG(u)ASG(a){RULE(1,WRITE){UAG(u,u)UAG(u)}}");
}

#[test]
fn in_any_rule() {
    refused("UAG(u)ASG(a){RULE(1,READ){UAG(u)}RULE(1,WRITE){UAG(lost)}}", 12, "lost");
    refused("UAG(u)ASG(a){RULE(1,READ){UAG(u)}}ASG(b){INPA(x)RULE(1,WRITE){HAG(lost)}}", 12, "lost");
    refused("UAG(u)ASG(a){RULE(1,NONE){CALC(\"1\")UAG(u)UAG(u,lost)}}", 12, "lost");
}

#[test]
fn a_rule_switched_off() {
    refused("ASG(a){RULE(1,WRITE){FOO()UAG(lost)}}", 12, "lost");
    refused("ASG(a){RULE(1,WRITE){HAG(lost)FOO()}}", 12, "lost");
}

#[test]
fn unknown_elements() {
    assert_eq!(check(b"ASG(a){RULE(1,WRITE){FOO(lost){UAG(lost)}}}"), "warning 2 at 21\n");
    assert_eq!(check(b"FOO(){RULE(UAG){UAG(lost)}}"), "warning 1 at 0\n");
    refused("FOO(){UAG(u)}ASG(a){RULE(1,WRITE){UAG(u)}}", 12, "u)}}");
    refused("ASG(a){RULE(1,WRITE){\"UAG\"(u)UAG(lost)}}", 12, "lost");
}

#[test]
fn at_the_first_name() {
    refused("UAG(u)ASG(a){RULE(1,WRITE){UAG(u,one,two)}}", 12, "one");
    refused("ASG(a){RULE(1,WRITE){HAG(one)UAG(two)}}", 12, "one");
    refused("ASG(a){RULE(1,WRITE){UAG(one)HAG(two)}}", 12, "one");
    refused("UAG(u)ASG(a){RULE(1,WRITE){UAG(\"lost\",u,lost)}}", 12, "\"lost\"");
    refused("ASG(b){RULE(1,READ){UAG(one)}}ASG(a){RULE(1,READ){UAG(two)}}", 12, "one");
}

/// Whichever stands first in the file.
#[test]
fn behind_5_6_and_7() {
    let long = "x".repeat(61);
    refused(&format!("ASG(a){{RULE(1,READ){{UAG({long},lost)}}}}"), 5, &long);
    refused(&format!("ASG(a){{RULE(1,READ){{UAG(lost)}}}}HAG({long})"), 5, &long);
    let groups: String = (0..65).map(|n| format!("UAG(u{n:02})")).collect();
    refused(&format!("ASG(a){{RULE(1,READ){{UAG(lost)}}}}{groups}"), 6, "u64");
    refused("ASG(a){RULE(1,READ){UAG(lost)}}ASG(\"a\")", 7, "\"a\"");
    refused("ASG(a){RULE(1,READ){UAG(lost)CALC(\"0\")CALC(\"1\")}}", 7, "CALC(\"1");
    refused("ASG(a){RULE(1,READ){UAG(lost)}INPA(x)INPA(y)}", 7, "INPA(y");
}

#[test]
fn before_8_to_11() {
    for rule in ["RULE(2,READ)", "RULE(1,read)", "RULE(1,READ,TRAP)", "RULE(1,READ){CALC(\"A\")}"] {
        refused(&format!("ASG(b){{{rule}}}ASG(a){{RULE(1,READ){{UAG(lost)}}}}"), 12, "lost");
    }
    let file = b"ASG(a){RULE(1,READ){UAG(lost)}}";
    let refusal = Err(Refusal { number: 12, place: 24 });
    assert_eq!(paper::load(file, &mut []), refusal);
    assert_eq!(paper::warnings(file).map(|w| w.len()), refusal.map(|l| l.warnings));
    assert_eq!(ask(file, b"a u h 1\n"), "refusal 12 at 24\n");
}

/// The table of a file, with each reference undefined.
fn undefined(file: &[u8]) -> Vec<u8> {
    let mut table = vec![0; TABLE_BYTES];
    let loaded = paper::load(file, &mut table).expect("it is right");
    table.truncate(loaded.length);
    let count = View::open(&table).expect("a table").count(REFERENCES);
    let start = usize::from(u16::from_le_bytes([table[30], table[31]]));
    for reference in 0..count {
        table[start + 6 * reference..][..2].copy_from_slice(&UNDEFINED.to_le_bytes());
    }
    table
}

#[test]
fn a_table_may_have_them() {
    for rule in ["UAG(u)", "HAG(h)", "UAG(u,u)HAG(h)"] {
        let file = format!("UAG(u){{ann}}HAG(h){{pc1}}ASG(DEFAULT){{RULE(1,READ)RULE(1,WRITE){{{rule}}}}}");
        let table = undefined(file.as_bytes());
        assert!(is_table(&table));
        let readings = [Reading::NeverHeard; LETTERS];
        let asked = Question { group: b"", user: b"ann", host: b"pc1", roles: &[], level: 1, readings };
        assert_eq!(decide(&table, &asked).map(|a| a.access), Ok(Access::Read), "{rule}");
    }
}
