//! What is made to be written back as text, by `paper` alone.

use inputs::random::Random;
use inputs::{export, file, letters, table};
use paper::{load, text_of, FILE_BYTES, TABLE_BYTES, TEXT_BYTES};
use std::collections::BTreeMap;

fn table_of(text: &[u8]) -> Option<Vec<u8>> {
    let mut lent = vec![0; TABLE_BYTES];
    let loaded = load(text, &mut lent).ok()?;
    lent.truncate(loaded.length);
    Some(lent)
}

/// 02: "For a table that today's loader made, a text within 16,384 bytes loads, the
/// loaded table answers every question alike, and exporting it gives the same text":
/// it is the same table. One that no text says has no definitions.
#[test]
fn a_loaded_table_comes_back() {
    let mut back = 0;
    for case in 0..4000 {
        let random = &mut Random::of_case(6, case);
        let text = if random.percent(60) { file::right(random) } else { letters::text(random) };
        let Some(table) = table_of(&text) else { continue };
        match text_of(&table) {
            Ok(text) if text.len() <= FILE_BYTES => {
                assert_eq!(table_of(&text), Some(table));
                back += 1;
            }
            Ok(_) => {}
            Err(number) => {
                assert_eq!(number, 27);
                assert!([4, 8, 16].iter().all(|at| table[*at] == 0 && table[at + 1] == 0));
            }
        }
    }
    assert!(back > 2000, "{back}");
}

/// Written, refused, and too long to load: each often enough. What is written loads, and
/// the table that comes of it is written alike, but for hosts in lower case.
#[test]
fn tables_that_no_load_makes() {
    let mut counts: BTreeMap<String, usize> = BTreeMap::new();
    for case in 0..4000 {
        let random = &mut Random::of_case(7, case);
        let mut table = export::table(random);
        if random.percent(20) {
            table::damage(random, &mut table);
        }
        let answer = match text_of(&table) {
            Err(number) => format!("refused {number}"),
            Ok(text) if text.len() > 65_535 => "over 65,535 bytes".to_string(),
            Ok(text) if text.len() > FILE_BYTES => "over 16,384 bytes".to_string(),
            Ok(text) => {
                let again = table_of(&text).and_then(|table| text_of(&table).ok()).expect("it loads");
                assert_eq!(text.to_ascii_lowercase(), again.to_ascii_lowercase());
                "written".to_string()
            }
        };
        *counts.entry(answer).or_default() += 1;
    }
    for answer in ["written", "refused 20", "refused 27", "over 65,535 bytes"] {
        assert!(counts.get(answer).is_some_and(|count| *count > 20), "{counts:?}");
    }
    println!("{counts:?}");
}

/// No text is longer.
#[test]
fn the_longest() {
    assert_eq!(TEXT_BYTES, 213_056);
    assert_eq!(text_of(&export::crowded(60)).map(|text| text.len()), Ok(TEXT_BYTES));
    for length in [3, 30, 59] {
        let text = text_of(&export::crowded(length)).expect("it can be written");
        assert!((FILE_BYTES..TEXT_BYTES).contains(&text.len()));
    }
}

/// Around the longest that loads.
#[test]
fn of_a_length() {
    for length in FILE_BYTES - 70..FILE_BYTES + 70 {
        let table = table_of(&export::of_text_length(length)).expect("it loads");
        let text = text_of(&table).expect("it can be written");
        assert_eq!(text.len(), length);
        assert_eq!(table_of(&text), (length <= FILE_BYTES).then_some(table));
    }
}
