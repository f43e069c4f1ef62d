//! A table written back as text: document 02's sixth request.

use paper::table::{ACCESS_GROUPS, INPUTS, MEMBERS, REFERENCES, STRINGS, UNDEFINED, USER_GROUPS, WIDTHS};
use paper::{export, is_table, load, programs, text_of, Refusal, FILE_BYTES, TABLE_BYTES};

fn table_of(file: &str) -> Vec<u8> {
    let mut table = vec![0; TABLE_BYTES];
    let loaded = load(file.as_bytes(), &mut table).unwrap_or_else(|r| panic!("{r:?}: {file}"));
    table.truncate(loaded.length);
    table
}

fn exported(table: &[u8]) -> Result<String, u8> {
    Ok(String::from_utf8(text_of(table)?).expect("it is ASCII"))
}

/// The bytes where a record of a section stands.
fn record(table: &[u8], section: usize, number: usize) -> usize {
    let at = 6 + 4 * section;
    let offset: usize = u16::from_le_bytes([table[at], table[at + 1]]).into();
    offset + 2 * WIDTHS[section] * number
}

/// A table with another byte in place of each `@` of its strings.
fn with_byte(file: &str, byte: u8) -> Vec<u8> {
    let mut table = table_of(file);
    let strings: usize = u16::from_le_bytes([table[6 + 4 * STRINGS], table[7 + 4 * STRINGS]]).into();
    for place in &mut table[strings..] {
        if *place == b'@' {
            *place = byte;
        }
    }
    assert!(is_table(&table));
    table
}

/// What the request and its readings say, in full.
#[test]
fn every_line() {
    let file = r#"ASG(tower){RULE(1,WRITE,TRAPWRITE){BAR(x){y}CALC(" A>0.3 ")HAG(pcs)UAG(ops)FOO()UAG(all,"ops")}INPA(T:A)
        RULE(+0,"READ") INPB("T B")} HAG(pcs){PC1,pc2} FOO(){z} UAG(ops){ann , "b b"} HAG(bare) UAG(all) ASG(DEFAULT)
        ASG(""){RULE(00,NONE){CALC("1")}RULE(1,NONE,TRAPWRITE){CALC("0")}}"#;
    let text = "UAG(\"ops\"){\n\"ann\",\"b b\"\n}\nUAG(\"all\")\nHAG(\"pcs\"){\n\"pc1\",\"pc2\"\n}\nHAG(\"bare\")\n\
        ASG(\"tower\"){\nINPA(\"T:A\")\nINPB(\"T B\")\n\
        RULE(1,WRITE,TRAPWRITE){\nUAG(\"ops\",\"all\",\"ops\")\nHAG(\"pcs\")\nCALC(\" A>0.3 \")\nUNKNOWN()\n}\n\
        RULE(0,READ,NOTRAPWRITE)\n}\nASG(\"DEFAULT\")\nASG(\"\"){\nRULE(0,NONE,NOTRAPWRITE){\nCALC(\"1\")\n}\n\
        RULE(1,NONE,TRAPWRITE){\nCALC(\"0\")\n}\n}\n";
    assert_eq!(exported(&table_of(file)), Ok(text.to_string()));
    assert_eq!(table_of(text), table_of(file));
}

/// The program: the text, the loader's refusal, or the export's.
#[test]
fn what_is_printed() {
    let printed = |rules: &str| String::from_utf8(programs::export(rules.as_bytes())).expect("it is ASCII");
    assert_eq!(printed("UAG(a)# a comment"), "UAG(\"a\")\n");
    assert_eq!(printed(""), "refusal 4 at 0\n");
    assert_eq!(printed("UAG(a)UAG(a)"), "refusal 7 at 10\n");
    assert_eq!(printed("FOO()"), "refused 27\n");
}

#[test]
fn no_definitions() {
    assert_eq!(exported(&table_of("FOO()")), Err(27));
    assert_eq!(exported(&table_of("FOO()UAG(a)")), Ok("UAG(\"a\")\n".to_string()));
}

#[test]
fn not_a_table() {
    let table = table_of("UAG(a)");
    for slice in [&[][..], &table[..table.len() - 1], &[0; 100]] {
        assert_eq!(exported(slice), Err(20));
    }
    assert_eq!(exported(&[&table[..], b"more"].concat()), exported(&table));
}

/// Of all bytes, only a bare quote, a bare newline and a backslash at the end.
#[test]
fn each_byte_of_a_name() {
    for byte in 0..=255 {
        let inside = with_byte("UAG(\"a@b\")", byte);
        let wanted = if byte == b'"' || byte == b'\n' {
            Err(27)
        } else {
            Ok([b"UAG(\"a", &[byte][..], b"b\")\n"].concat())
        };
        assert_eq!(text_of(&inside), wanted);
        let last = with_byte("UAG(\"a@\")", byte);
        assert_eq!(text_of(&last).is_err(), b"\"\n\\".contains(&byte), "{byte}");
        let escaped = with_byte("UAG(\"\\@\")", byte);
        assert_eq!(text_of(&escaped), Ok([b"UAG(\"\\", &[byte][..], b"\")\n"].concat()));
    }
}

/// In each record that names a string.
#[test]
fn each_name() {
    let file = r#"UAG("p"){"q"}HAG("r"){"s"}ASG("t"){INPA("u")RULE(1,READ){UAG("p")HAG("r")CALC("1")}}"#;
    for name in ["p", "q", "r", "s", "t", "u"] {
        let file = file.replace(&format!("\"{name}\""), "\"a@\"");
        assert_eq!(exported(&with_byte(&file, b'"')), Err(27), "{file}");
        assert!(exported(&with_byte(&file, b'.')).is_ok(), "{file}");
    }
}

/// `x","y` would load as two members.
#[test]
fn strings_are_judged_one_by_one() {
    let table = with_byte("UAG(a){\"x@,@y\"}", b'"');
    assert_eq!(exported(&table), Err(27));
    let table = with_byte("UAG(a){\"x@,@y\"}", b'\'');
    assert_eq!(exported(&table), Ok("UAG(\"a\"){\n\"x','y\"\n}\n".to_string()));
}

/// Refusal 7 would come of it; no load makes such a table.
#[test]
fn given_again() {
    let mut table = table_of("UAG(a)UAG(b)");
    let (first, second) = (record(&table, USER_GROUPS, 0), record(&table, USER_GROUPS, 1));
    table.copy_within(first..first + 4, second);
    assert_eq!(exported(&table), Err(27));
    let mut table = table_of("ASG(a){INPA(x)INPB(y)}");
    let second = record(&table, INPUTS, 1);
    table[second] = 0;
    assert_eq!(exported(&table), Err(27));
    table[second] = 20;
    assert_eq!(exported(&table), Ok("ASG(\"a\"){\nINPA(\"x\")\nINPU(\"y\")\n}\n".to_string()));
}

/// Refusal 12 goes by the names, users and hosts apart; the numbers say nothing.
#[test]
fn references_by_their_names() {
    let file = "UAG(a)UAG(b)HAG(c)ASG(d){RULE(1,READ){UAG(a)}}";
    let table = table_of(file);
    let at = record(&table, REFERENCES, 0);
    for number in [0, 1, UNDEFINED] {
        let mut table = table.clone();
        table[at..at + 2].copy_from_slice(&number.to_le_bytes());
        assert_eq!(exported(&table), exported(&table_of(file)));
    }
    let named = |section, number| {
        let mut table = table.clone();
        let from = record(&table, section, number);
        table.copy_within(from..from + 4, at + 2);
        exported(&table)
    };
    assert_eq!(named(USER_GROUPS, 1), exported(&table_of(&file.replace("{UAG(a)}", "{UAG(b)}"))));
    assert_eq!(named(USER_GROUPS + 1, 0), Err(27));
    assert_eq!(named(ACCESS_GROUPS, 0), Err(27));
}

/// Refusal 10 would come of it: a table's check does not ask for inputs.
#[test]
fn a_letter_without_input() {
    let mut table = table_of("ASG(a){INPA(x)RULE(1,READ){CALC(\"A\")}}ASG(b){INPB(y)}");
    assert!(exported(&table).is_ok());
    let at = record(&table, INPUTS, 0);
    table[at] = 1;
    assert!(is_table(&table));
    assert_eq!(exported(&table), Err(27));
}

/// Too short by one, of the length, longer: 28 has the bytes needed, what is refused
/// writes nothing, and the bytes behind a text stay.
#[test]
fn lent_bytes() {
    let table = table_of("UAG(a){b}");
    let text = b"UAG(\"a\"){\n\"b\"\n}\n";
    for length in 0..text.len() {
        let mut lent = vec![7; length];
        assert_eq!(export(&table, &mut lent), Err(Refusal { number: 28, place: text.len() }));
        assert!(lent.iter().all(|byte| *byte == 7));
    }
    let mut lent = vec![7; text.len() + 3];
    assert_eq!(export(&table, &mut lent), Ok(text.len()));
    assert_eq!(lent, [&text[..], &[7; 3]].concat());
}

#[test]
fn order_of_refusals() {
    let refused = |table: &[u8]| export(table, &mut []).map_err(|refusal| (refusal.number, refusal.place));
    assert_eq!(refused(b"none"), Err((20, 0)));
    assert_eq!(refused(&table_of("FOO()")), Err((27, 0)));
    assert_eq!(refused(&table_of("UAG(a)")), Err((28, 9)));
}

/// A text too long to load is written all the same.
#[test]
fn a_text_over_the_limit_of_a_file() {
    let rules = "RULE(1,READ){UAG(u)HAG(h)F()}".repeat(256);
    let file = format!("UAG(u){{{}}}HAG(h)ASG(a){{{rules}}}", vec!["x"; 1024].join(","));
    let text = exported(&table_of(&file)).expect("it can be written");
    assert!(file.len() <= FILE_BYTES && text.len() > FILE_BYTES);
    assert_eq!(load(text.as_bytes(), &mut []), Err(Refusal { number: 1, place: 0 }));
}

/// If its members share a string, which those of no loaded table do.
#[test]
fn a_text_over_65535_bytes() {
    let members = ["x"; 16].join(",");
    let file: String = (0..64).map(|n| format!("UAG(g{n:059}){{{members}}}")).collect();
    let mut table = table_of(&file);
    let heads = 64 * 72;
    assert_eq!(exported(&table).map(|text| text.len()), Ok(heads + 1024 * 4 - 64));
    let name = record(&table, USER_GROUPS, 0);
    for number in 0..1024 {
        let at = record(&table, MEMBERS, number);
        table.copy_within(name..name + 4, at);
    }
    let length = heads + 1024 * 63 - 64;
    assert!(length > 65_535);
    assert_eq!(exported(&table).map(|text| text.len()), Ok(length));
    assert_eq!(export(&table, &mut vec![0; 65_535]), Err(Refusal { number: 28, place: length }));
}
