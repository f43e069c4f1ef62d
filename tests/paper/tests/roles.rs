//! Roles by their request's sentences.

use paper::programs::ask;
use paper::{decide, Access, Client, Question, Reading, Register, LETTERS, ROLES, ROLE_BYTES, TABLE_BYTES};

/// 001's own group, and others.
const RULES: &[u8] = br#"UAG(special) {someone, "role/op"} UAG(nameless) {"role/"} UAG(capital) {"Role/op"} HAG(hosts) {"role/op"}
ASG(DEFAULT) {RULE(1,WRITE) {UAG(special)}} ASG(nameless) {RULE(1,WRITE) {UAG(nameless)}}
ASG(capital) {RULE(1,WRITE) {UAG(capital)}} ASG(hosts) {RULE(1,WRITE) {HAG(hosts)}}"#;

fn table() -> Vec<u8> {
    let mut table = vec![0; TABLE_BYTES];
    paper::load(RULES, &mut table).expect("the rules are right");
    table
}

fn roles(names: &[&str]) -> Vec<Vec<u8>> {
    names.iter().map(|name| name.as_bytes().to_vec()).collect()
}

fn question<'a>(group: &'a str, user: &'a str, roles: &'a [Vec<u8>]) -> Question<'a> {
    let (group, user) = (group.as_bytes(), user.as_bytes());
    Question { group, user, host: b"pc1", roles, level: 1, readings: [Reading::NeverHeard; LETTERS] }
}

fn writes(group: &str, user: &str, names: &[&str]) -> bool {
    let answer = decide(&table(), &question(group, user, &roles(names)));
    answer.expect("no refusal").access == Access::Write
}

#[test]
fn a_member_of_a_role() {
    assert!(writes("", "someone", &[]) && writes("", "ann", &["op"]));
    assert!(writes("", "ann", &["dev", "op"]) && writes("", "ann", &["op", "op"]));
    for wrong in ["o", "opp", "Op", "role/op", ""] {
        assert!(!writes("", "ann", &[wrong]), "{wrong}");
    }
}

#[test]
fn no_user_name_any_more() {
    assert!(!writes("", "role/op", &[]) && !writes("", "op", &[]));
    assert!(!writes("", "ann", &["someone"]));
    assert!(writes("", "role/op", &["op"]));
}

#[test]
fn the_empty_role() {
    assert!(writes("nameless", "", &[""]));
    assert!(!writes("nameless", "", &[]) && !writes("nameless", "role/", &["role/"]));
}

#[test]
fn the_prefix_byte_for_byte() {
    assert!(writes("capital", "Role/op", &[]));
    assert!(!writes("capital", "ann", &["op"]));
}

#[test]
fn hosts_have_no_roles() {
    let (has, none) = (roles(&["op"]), roles(&[]));
    let from = |host, roles| {
        decide(&table(), &Question { host, ..question("hosts", "ann", roles) }).map(|a| a.access)
    };
    assert_eq!(from(b"pc1", &has), Ok(Access::None));
    assert_eq!(from(b"Role/OP", &none), Ok(Access::Write));
}

#[test]
fn refusals_in_their_order() {
    let refusal = |table: &[u8], level, roles: &[Vec<u8>]| {
        decide(table, &Question { level, ..question("", "ann", roles) }).err()
    };
    let table = table();
    let (most, longest) = (vec![b"op".to_vec(); ROLES], vec![vec![b'x'; ROLE_BYTES]]);
    assert_eq!([refusal(&table, 1, &most), refusal(&table, 0, &longest)], [None; 2]);
    let (more, longer) = (vec![Vec::new(); ROLES + 1], vec![Vec::new(), vec![b'x'; ROLE_BYTES + 1]]);
    for refused in [more, longer] {
        assert_eq!(refusal(&table, 1, &refused), Some(26));
        assert_eq!(refusal(&table, 2, &refused), Some(21));
        assert_eq!(refusal(b"", 2, &refused), Some(20));
        assert_eq!(refusal(b"", 1, &refused), Some(20));
    }
}

/// Neither by a line nor in a register.
#[test]
fn channel_access_has_none() {
    let lines = b"- someone pc1 1\n- role/op pc1 1\n- op pc1 1\n";
    assert_eq!(ask(RULES, lines), "WRITE NOTRAPWRITE -\nNONE NOTRAPWRITE -\nNONE NOTRAPWRITE -\n");
    let mut register = Register::empty();
    for user in ["someone", "role/op", "op"] {
        let client = Client { user: user.into(), ..Client::default() };
        register.add(&client).expect("there is room");
    }
    let rights = register.rights(&table());
    let expected = [Access::Write, Access::None, Access::None];
    assert!(rights.iter().zip(expected).all(|(right, access)| right.access == access));
}
