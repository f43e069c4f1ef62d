//! The register by its request's sentences, a call a line.

use paper::register::changed;
use paper::script::{call, line, text};
use paper::{Register, TABLE_BYTES};

const SITE: &str =
    "ASG(\"\"){INPA(x)INPB(x)}ASG(DEFAULT){INPA(x)RULE(1,READ)RULE(1,WRITE,TRAPWRITE){CALC(\"A\")}}\
                    ASG(t){INPA(x)INPU(x)RULE(0,WRITE){CALC(\"A+U\")}}";
const ONE: &str = "3ff0000000000000";
const ZERO: &str = "0000000000000000";

fn hex(text: &str) -> String {
    text.bytes().map(|b| format!("{b:02x}")).collect()
}

/// A register over a table.
struct Desk {
    register: Register,
    table: Vec<u8>,
}

impl Desk {
    fn empty() -> Desk {
        Desk { register: Register::empty(), table: vec![0; TABLE_BYTES] }
    }

    fn of_site() -> Desk {
        let mut desk = Desk::empty();
        assert!(desk.says(&format!("load {}", hex(SITE))).starts_with("ok "));
        desk
    }

    /// The answer to a line, without the rights.
    fn says(&mut self, written: &str) -> String {
        let call = call(written).unwrap_or_else(|| panic!("{written} is no call"));
        let answer = self.register.call(&mut self.table, &call);
        let said = line(&call, answer, &self.register.rights(&self.table));
        said.split(" |").next().unwrap_or_default().to_string()
    }

    /// The rights of the first places.
    fn rights(&self, count: usize) -> String {
        let all = self.register.rights(&self.table);
        let shown: Vec<String> = all[..count].iter().map(paper::script::right).collect();
        shown.join(" ")
    }
}

fn set(group: &str, letter: u32, reading: &str) -> String {
    let group = if group.is_empty() { "-".to_string() } else { hex(group) };
    format!("set {group} {letter} {reading}")
}

#[test]
fn refusals_of_a_client_in_their_order() {
    let (long, most) = ("78".repeat(61), "78".repeat(60));
    let mut desk = Desk::empty();
    for names in [format!("{long} 2 - -"), format!("- 2 {long} -"), format!("- 1 - {long}")] {
        assert_eq!(desk.says(&format!("add {names}")), "refused 23");
        assert_eq!(desk.says(&format!("change 0 {names}")), "refused 25");
    }
    assert_eq!(desk.says("add - 2 - -"), "refused 21");
    assert_eq!(desk.says(&format!("add {most} 1 {most} {most}")), "ok 0");
    assert_eq!(desk.says(&format!("change 0 {long} 2 - -")), "refused 23");
    assert_eq!(desk.says("change 0 - 256 - -"), "refused 21");
    assert_eq!(desk.says("change 64 - 1 - -"), "refused 25");
    assert_eq!(desk.says("remove 1"), "refused 25");
    assert_eq!(desk.says("remove 0"), "ok");
    assert_eq!(desk.says("remove 0"), "refused 25");
}

#[test]
fn the_lowest_free_place() {
    let mut desk = Desk::empty();
    for place in 0..64 {
        assert_eq!(desk.says("add - 0 - -"), format!("ok {place}"));
    }
    assert_eq!(desk.says("add - 0 - -"), "refused 24");
    assert_eq!(desk.says("add - 2 - -"), "refused 21");
    assert_eq!(desk.says("remove 63"), "ok");
    assert_eq!(desk.says("remove 5"), "ok");
    assert_eq!(desk.says("add - 0 - -"), "ok 5");
    assert_eq!(desk.says("add - 0 - -"), "ok 63");
}

#[test]
fn readings_that_are_refused() {
    assert_eq!(Desk::empty().says(&set("", 99, ONE)), "refused 20");
    let mut desk = Desk::of_site();
    for refused in
        [set("nowhere", 0, ONE), set("", 1, ONE), set("", 20, ONE), set("t", 21, ONE), set("t", 276, ONE)]
    {
        assert_eq!(desk.says(&refused), "refused 22", "{refused}");
    }
    for reading in ["-", "inv", "nan", ONE, "7ff0000000000000"] {
        assert_eq!(desk.says(&set("t", 20, reading)), "ok");
    }
}

/// Empty is DEFAULT, where an ASG of no name stands too; a client of an
/// undefined group goes by DEFAULT's readings.
#[test]
fn readings_belong_to_the_group() {
    let mut desk = Desk::of_site();
    assert_eq!(desk.says("add - 1 - -"), "ok 0");
    assert_eq!(desk.says(&format!("add {} 1 - -", hex("nowhere"))), "ok 1");
    assert_eq!(desk.says(&format!("add {} 0 - -", hex("t"))), "ok 2");
    assert_eq!(desk.rights(4), "R- R- N- N-");
    assert_eq!(desk.says(&set("", 0, ONE)), "ok");
    assert_eq!(desk.rights(4), "Wt Wt N- N-");
    assert_eq!(desk.says(&set("t", 0, ONE)), "ok");
    assert_eq!(desk.rights(4), "Wt Wt N- N-");
    assert_eq!(desk.says(&set("t", 20, ZERO)), "ok");
    assert_eq!(desk.rights(4), "Wt Wt W- N-");
    assert_eq!(desk.says(&set("DEFAULT", 0, "-")), "ok");
    assert_eq!(desk.rights(4), "R- R- W- N-");
    assert_eq!(desk.says("remove 2"), "ok");
    assert_eq!(desk.rights(4), "R- R- N- N-");
}

#[test]
fn only_a_good_load_forgets_readings() {
    let mut desk = Desk::of_site();
    desk.says("add - 1 - -");
    desk.says(&set("", 0, ONE));
    assert_eq!(desk.says(&format!("load {}", hex("UAG(a"))), "refused 4 5");
    assert_eq!(desk.rights(1), "Wt");
    let before = desk.register.rights(&desk.table);
    assert!(desk.says(&format!("load {}", hex(SITE))).starts_with("ok "));
    assert_eq!(desk.rights(1), "R-");
    assert_eq!(changed(&before, &desk.register.rights(&desk.table)), 1);
}

/// A load may be lent another room than that of the table in force: accepted, all is
/// as in the same room; refused, the table in force goes on.
#[test]
fn a_load_into_another_room() {
    let (good, bad) = (format!("load {}", hex(SITE)), format!("load {}", hex("UAG(a")));
    let mut desk = Desk::of_site();
    desk.says("add - 1 - -");
    desk.says(&set("", 0, ONE));
    let before = desk.register.rights(&desk.table);
    let other_room = [vec![7; 10], vec![7; TABLE_BYTES], desk.table.clone()];
    for (room, line, answer) in
        [(1, &bad, "refused 4 5"), (0, &good, "refused 11 "), (2, &bad, "refused 4 5")]
    {
        let kept = std::mem::replace(&mut desk.table, other_room[room].clone());
        assert!(desk.says(line).starts_with(answer));
        assert_eq!(desk.table, other_room[room]);
        desk.table = kept;
        assert_eq!(desk.register.rights(&desk.table), before);
    }
    let mut same_room = Desk { register: desk.register.clone(), table: desk.table.clone() };
    let said = same_room.says(&good);
    desk.table.clone_from(&other_room[1]);
    assert_eq!(desk.says(&good), said);
    let after = desk.register.rights(&desk.table);
    assert_eq!(after, same_room.register.rights(&same_room.table));
    assert_eq!((desk.rights(1), changed(&before, &after)), ("R-".to_string(), 1));
}

#[test]
fn no_table_gives_no_right() {
    let mut desk = Desk::of_site();
    desk.says("add - 1 - -");
    assert_eq!(desk.rights(1), "R-");
    desk.table[0] = 2;
    assert_eq!(desk.rights(1), "N-");
}

#[test]
fn words_of_a_script() {
    assert_eq!(text("-"), Some(Vec::new()));
    assert_eq!(text("4a"), Some(b"J".to_vec()));
    assert_eq!(text("4"), None);
    assert!(call("add - 1 -").is_none() && call("set - 0 1").is_none() && call("").is_none());
}
