//! Bad arithmetic by its request's sentences.

use paper::calculation::{holds, parse, value, Readings};
use paper::{Reading, LETTERS};

/// A and B as given, the others never heard.
fn heard(a: f64, b: f64) -> Readings {
    let mut readings = [Reading::NeverHeard; LETTERS];
    (readings[0], readings[1]) = (Reading::Value(a), Reading::Value(b));
    readings
}

fn of(text: &str, a: f64, b: f64) -> Option<f64> {
    value(&parse(text.as_bytes()).expect("a calculation"), &heard(a, b))
}

fn truth(text: &str, a: f64, b: f64) -> bool {
    holds(&parse(text.as_bytes()).expect("a calculation"), &heard(a, b))
}

/// Still ground, zero over zero.
#[test]
fn drift_ratio() {
    assert!(!truth("!(A/B>0.5)", 0.0, 0.0) && !truth("A/B>0.5", 0.0, 0.0));
    assert!(truth("!(A/B>0.5)", 1.0, 4.0) && truth("A/B>0.5", 1.0, 1.0));
    assert_eq!(of("B=0?0:A/B", 0.0, 0.0), Some(0.0));
    assert!(truth("B=0?0:A/B", 1.0, 1.0) && !truth("B=0?0:A/B", 0.0, 1.0));
    assert!(truth("B=0?1:A/B", 1.0, 0.0) && !truth("B=0?A/B:1", 1.0, 0.0));
}

/// Neither a comparison nor `!`, nor 1 over it, nor a condition makes it good.
#[test]
fn swallowed() {
    let bad = ["0/0>1?0:1", "1/0>1", "0/0#0", "0/0!=1", "1>=-(1/0)", "1/0=1/0", "1/(1/0)=0", "-(1/0)<0"];
    let more = ["!(0/0)", "!!(1/0)", "0/0?1:1", "1/0?1:0", "(0*(1/0)#0)*1", "(1/0-1/0#0)+0", "--(1/0)>1"];
    for text in bad.into_iter().chain(more) {
        assert!(!truth(text, 0.0, 0.0), "{text}");
        assert_eq!(of(text, 0.0, 0.0), None, "{text}");
    }
}

#[test]
fn both_sides() {
    for text in ["1||0/0", "0/0||1", "0&&1/0", "1/0&&0", "!(0&&1/0)", "1||1||1/0", "(0&&0/0)=0"] {
        assert_eq!(of(text, 0.0, 0.0), None, "{text}");
    }
    assert!(truth("1||A/B", 0.0, 1.0) && truth("!(0&&A/B)", 0.0, 1.0));
}

#[test]
fn branch_not_chosen() {
    for text in ["1?1:0/0", "0?0/0:1", "0?1/0:1?1:1/0", "!(1?0:1/0)", "(0?0/0>1:1)&&1", "A=0?1:1/A"] {
        assert!(truth(text, 0.0, 0.0), "{text}");
    }
    assert_eq!(of("1?0/0:1", 0.0, 0.0), None);
    assert_eq!(of("0?1:0/0>1", 0.0, 0.0), None);
}

/// Too great for binary64; too small is 0, and both zeros are good.
#[test]
fn overflow() {
    assert!(!truth("A*A>1", 1e200, 0.0) && truth("A*A>1", 1e100, 0.0));
    assert!(!truth("A+A>1", f64::MAX, 0.0) && !truth("-A-A<0", f64::MAX, 0.0) && truth("A>1", f64::MAX, 0.0));
    assert!(!truth("A/B>1", 1e200, 1e-200) && !truth("1/A>1", 5e-324, 0.0));
    assert!(truth("A*A=0", 1e-200, 0.0) && truth("A/2=0", -5e-324, 0.0) && truth("-A=0", 0.0, 0.0));
}

/// A letter never heard, in either branch, and a reading that is no number.
#[test]
fn bad_letters() {
    for text in ["1?1:C", "C?1:1", "1||C", "1?1:0/C", "0/0>C"] {
        assert_eq!(of(text, 0.0, 0.0), None, "{text}");
    }
    assert_eq!(of("B=0?1:A", f64::NAN, 0.0), None);
    assert_eq!(of("B=0?1:A", f64::INFINITY, 0.0), None);
    assert_eq!(of("B=0?1:A", 7.0, 0.0), Some(1.0));
}
