//! A walk over a table: its access groups by number, and their inputs.

use paper::table::{View, ACCESS_GROUPS, HEADER_BYTES, INPUTS, WIDTHS};
use paper::{find_input, group_at, inputs, is_table, Input, Reading, Register, LETTERS, TABLE_BYTES};

const SITE: &str = "UAG(u){ann}HAG(h){pc1}ASG(t){INPC(T:C)INPA(T:A)RULE(1,READ)}ASG(bare)\
                    ASG(DEFAULT){INPU(D:U)RULE(1,WRITE){UAG(u)HAG(h)CALC(\"U\")}}";

/// Numbers that a table of three groups has none of: what they are with fewer bits,
/// it may have.
const BEYOND: [usize; 12] =
    [3, 4, 63, 64, 65, 255, 256, 65_536, (1 << 32) - 1, 1 << 32, (1 << 63) + 1, usize::MAX];

fn table_of(file: &str) -> Vec<u8> {
    let mut table = vec![0; TABLE_BYTES];
    let loaded = paper::load(file.as_bytes(), &mut table).unwrap_or_else(|r| panic!("{r:?}: {file}"));
    table.truncate(loaded.length);
    table
}

/// The name by the number, or the refusal.
fn named(table: &[u8], number: usize) -> Result<&str, u8> {
    let (place, length) = group_at(table, number)?;
    Ok(std::str::from_utf8(&table[place..place + length]).expect("it is ASCII"))
}

/// Each input as `group letter name`.
fn told(table: &[u8]) -> Vec<String> {
    let text = |(place, length)| String::from_utf8_lossy(&table[place..place + length]);
    let line = |input: Input| {
        let letter = char::from(b'A' + input.letter as u8);
        format!("{} {letter} {}", text(input.group), text(input.name))
    };
    inputs(table).into_iter().map(line).collect()
}

fn section(table: &[u8], section: usize) -> usize {
    let at = 6 + 4 * section;
    u16::from_le_bytes([table[at], table[at + 1]]).into()
}

/// The group `to` gets the name of the group `from`.
fn rename(table: &mut [u8], to: usize, from: usize) {
    let record = |number: usize| section(table, ACCESS_GROUPS) + 2 * WIDTHS[ACCESS_GROUPS] * number;
    let (to, from) = (record(to), record(from));
    table.copy_within(from..from + 4, to);
}

#[test]
fn groups_in_file_order() {
    let table = table_of(SITE);
    assert_eq!([0, 1, 2].map(|number| named(&table, number)), [Ok("t"), Ok("bare"), Ok("DEFAULT")]);
    for number in BEYOND {
        assert_eq!(named(&table, number), Err(22), "{number}");
    }
}

/// Places count from the start of the slice: behind the sections' records, in section
/// order, the names of user group, host group and members stand before.
#[test]
fn a_name_is_a_part_of_the_strings() {
    let table = table_of("UAG(users){ann}HAG(h)ASG(tower)");
    let strings = HEADER_BYTES + 2 * (2 * WIDTHS[0] + WIDTHS[2] + WIDTHS[3]);
    assert_eq!(group_at(&table, 0), Ok((strings + "usershann".len(), 5)));
    let longer = [&table[..], b"more"].concat();
    assert_eq!(group_at(&longer, 0), group_at(&table, 0));
}

#[test]
fn no_groups() {
    let table = table_of("UAG(a){ann}HAG(a){pc1}");
    for number in [0].into_iter().chain(BEYOND) {
        assert_eq!(named(&table, number), Err(22));
    }
    assert!(inputs(&table).is_empty());
}

#[test]
fn as_many_as_a_table_has() {
    let file: String = (0..64).map(|n| format!("ASG(g{n}){{INPA(x{n})INPB(y)}}")).collect();
    let table = table_of(&file);
    assert_eq!(named(&table, 63), Ok("g63"));
    assert_eq!(named(&table, 64), Err(22));
    let all = told(&table);
    assert_eq!((all.len(), &*all[0], &*all[127]), (128, "g0 A x0", "g63 B y"));
}

/// 20 comes before 22, and nothing is told.
#[test]
fn not_a_table() {
    let table = table_of(SITE);
    let mut damaged = table.clone();
    let at = section(&table, INPUTS);
    damaged[at] = 21; // a letter that there is not
    let cut = &table[..table.len() - 1];
    for slice in [&[][..], &[1], &damaged, cut, &vec![0; TABLE_BYTES]] {
        for number in [0, 1, 2].into_iter().chain(BEYOND) {
            assert_eq!(named(slice, number), Err(20));
        }
        assert!(inputs(slice).is_empty());
    }
}

/// Letters from A on, in whichever order the file has them.
#[test]
fn inputs_by_group_and_letter() {
    assert_eq!(told(&table_of(SITE)), ["t A T:A", "t C T:C", "DEFAULT U D:U"]);
    let all: String = ('A'..='U').rev().map(|letter| format!("INP{letter}(x:{letter})")).collect();
    let each: Vec<String> = ('A'..='U').map(|letter| format!("g {letter} x:{letter}")).collect();
    assert_eq!(told(&table_of(&format!("ASG(g){{{all}}}"))), each);
}

/// No question comes to it, for an empty name is DEFAULT's; so it is left out, and
/// DEFAULT's inputs are not told for it.
#[test]
fn a_group_of_an_empty_name() {
    let table = table_of("ASG(\"\"){INPA(x)INPB(y)}ASG(DEFAULT){INPA(z)}");
    assert_eq!([0, 1, 2].map(|number| named(&table, number)), [Ok(""), Ok("DEFAULT"), Err(22)]);
    assert_eq!(told(&table), ["DEFAULT A z"]);
    let alone = table_of("ASG(\"\"){INPA(x)}");
    assert_eq!(named(&alone, 0), Ok(""));
    assert!(inputs(&alone).is_empty());
}

#[test]
fn an_input_of_an_empty_name() {
    assert_eq!(told(&table_of("ASG(t){INPA(\"\")INPB(y)}")), ["t A ", "t B y"]);
}

/// Of two groups of one name, which no load writes, the first answers: its inputs
/// are told twice, the second's never.
#[test]
fn a_repeated_name() {
    let mut table = table_of("ASG(a){INPA(one)}ASG(b){INPA(two)INPB(two)}ASG(c){INPC(x)}");
    rename(&mut table, 1, 0);
    assert!(is_table(&table));
    assert_eq!([0, 1, 2].map(|number| named(&table, number)), [Ok("a"), Ok("a"), Ok("c")]);
    assert_eq!(told(&table), ["a A one", "a A one", "c C x"]);
}

/// A letter's first input counts, where a table that no load wrote has two.
#[test]
fn a_repeated_letter() {
    let mut table = table_of("ASG(a){INPA(one)INPB(two)}");
    let at = section(&table, INPUTS) + 2 * WIDTHS[INPUTS];
    table[at] = 0;
    assert!(is_table(&table));
    assert_eq!(told(&table), ["a A one"]);
}

/// Each is what the look-up finds, and a reading can be set for it; for no other
/// letter of these groups.
#[test]
fn what_is_told_can_be_set() {
    let table = table_of(SITE);
    let all = inputs(&table);
    let view = View::open(&table).expect("it is a table");
    for number in 0..view.count(ACCESS_GROUPS) {
        let (place, length) = group_at(&table, number).expect("there is such a group");
        let group = &table[place..place + length];
        for letter in 0..LETTERS as u32 + 2 {
            let told = all.iter().find(|input| input.group == (place, length) && input.letter == letter);
            assert_eq!(told.map(|input| input.name), find_input(&table, group, letter).ok());
            let set = Register::empty().set(&table, group, letter, Reading::Invalid);
            assert_eq!(set, if told.is_some() { Ok(()) } else { Err(22) });
        }
    }
}
