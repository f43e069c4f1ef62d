//! Reading the text: bytes to tokens (refusal 2), and refusal 3.

use crate::OPEN_BRACES;

#[derive(Clone, Copy, Debug, PartialEq, Eq)]
pub enum Kind {
    Uag,
    Hag,
    Asg,
    Rule,
    Calc,
    /// INPA to INPU, by the letter's number.
    Inp(u8),
    Int,
    Float,
    String,
    /// One of `( ) { } ,`.
    Mark(u8),
}

/// A token; `text` is without the quotes, `place` is the quote if there is one.
#[derive(Clone, Copy, Debug, PartialEq, Eq)]
pub struct Token<'a> {
    pub kind: Kind,
    pub place: usize,
    pub text: &'a [u8],
}

/// The tokens of a text, or the place of its first bad byte or unclosed quote.
pub fn tokens(text: &[u8]) -> Result<Vec<Token<'_>>, usize> {
    let mut found = Vec::new();
    let mut place = 0;
    while place < text.len() {
        let byte = text[place];
        if matches!(byte, b' ' | b'\t' | b'\r' | b'\n') {
            place += 1;
        } else if byte == b'#' {
            place += run(&text[place..], |b| b != b'\n');
        } else if matches!(byte, b'(' | b')' | b'{' | b'}' | b',') {
            found.push(Token { kind: Kind::Mark(byte), place, text: &text[place..place + 1] });
            place += 1;
        } else if byte == b'"' {
            let end = closing_quote(text, place)?;
            found.push(Token { kind: Kind::String, place, text: &text[place + 1..end] });
            place = end + 1;
        } else if in_word(byte) {
            let end = place + run(&text[place..], in_word);
            let word = &text[place..end];
            found.push(Token { kind: kind_of_word(word), place, text: word });
            place = end;
        } else {
            return Err(place);
        }
    }
    Ok(found)
}

fn in_word(byte: u8) -> bool {
    byte.is_ascii_alphanumeric() || b"_-+:.[]<>;".contains(&byte)
}

/// How many bytes at the start are of a class.
fn run(text: &[u8], class: impl Fn(u8) -> bool) -> usize {
    text.iter().take_while(|b| class(**b)).count()
}

/// Where the quote that opens at `open` is closed.
fn closing_quote(text: &[u8], open: usize) -> Result<usize, usize> {
    let mut place = open + 1;
    while place < text.len() {
        match text[place] {
            b'"' => return Ok(place),
            b'\n' => return Err(place),
            b'\\' => place += 2,
            _ => place += 1,
        }
    }
    Err(open)
}

fn kind_of_word(word: &[u8]) -> Kind {
    match word {
        b"UAG" => Kind::Uag,
        b"HAG" => Kind::Hag,
        b"ASG" => Kind::Asg,
        b"RULE" => Kind::Rule,
        b"CALC" => Kind::Calc,
        [b'I', b'N', b'P', letter @ b'A'..=b'U'] => Kind::Inp(letter - b'A'),
        _ if is_int(word) => Kind::Int,
        _ if is_float(word) => Kind::Float,
        _ => Kind::String,
    }
}

fn without_sign(word: &[u8]) -> &[u8] {
    match word {
        [b'+' | b'-', rest @ ..] => rest,
        _ => word,
    }
}

fn are_digits(text: &[u8]) -> bool {
    !text.is_empty() && text.iter().all(u8::is_ascii_digit)
}

/// `INT ::= [sign] DIGIT+`
fn is_int(word: &[u8]) -> bool {
    are_digits(without_sign(word))
}

/// `FLOAT ::= [sign] DIGIT* "." DIGIT+ [("e" | "E") [sign] DIGIT+]`
fn is_float(word: &[u8]) -> bool {
    let rest = without_sign(word);
    let rest = &rest[run(rest, |b| b.is_ascii_digit())..];
    let [b'.', rest @ ..] = rest else { return false };
    let after = run(rest, |b| b.is_ascii_digit());
    let exponent_fits = match &rest[after..] {
        [] => true,
        [b'e' | b'E', exponent @ ..] => is_int(exponent),
        _ => false,
    };
    after > 0 && exponent_fits
}

/// The first brace with more than 16 open. A closing one with none open
/// counts for nothing.
pub fn brace_too_many(tokens: &[Token]) -> Option<usize> {
    let mut open = 0usize;
    for token in tokens {
        match token.kind {
            Kind::Mark(b'{') => open += 1,
            Kind::Mark(b'}') => open = open.saturating_sub(1),
            _ => {}
        }
        if open > OPEN_BRACES {
            return Some(token.place);
        }
    }
    None
}
